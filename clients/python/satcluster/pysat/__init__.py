"""Modules with the names of PySAT's, over the proved program: `solvers`, `formula` and `card`.

`satcluster.as_pysat` puts them in the place of `pysat`, so that programs need not be changed. They
are written from PySAT's documentation; no line is PySAT's. With the package `python-sat` installed,
only its `solvers` is replaced.
"""
