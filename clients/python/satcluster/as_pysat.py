"""Lets a program that was written for PySAT run over the proved program, unchanged.

    python -m satcluster.as_pysat PROGRAM.py [WORD ..]
    python -m satcluster.as_pysat -m MODULE [WORD ..]

`import satcluster.as_pysat`, before anything of PySAT, does the same within a program. If
`python-sat` is installed only its `pysat.solvers` is replaced, so all that it builds on solvers runs
over this one; else `pysat` has the modules of `satcluster.pysat`.
"""
import importlib
import runpy
import sys
from importlib.util import find_spec
from pathlib import Path
from types import ModuleType

from . import pysat
from .pysat import card, formula, solvers


def install() -> None:
    """Puts the modules where `import pysat` finds them."""
    sys.modules["pysat.solvers"] = solvers
    package: ModuleType = pysat
    if find_spec("pysat") is not None:
        package = importlib.import_module("pysat")
    else:
        sys.modules.update({"pysat": pysat, "pysat.formula": formula, "pysat.card": card})
    setattr(package, "solvers", solvers)


def main() -> None:
    words = sys.argv[1:]
    if words[:1] == ["-m"] and len(words) > 1:
        sys.argv = words[1:]
        sys.path.insert(0, "")
        runpy.run_module(words[1], run_name="__main__", alter_sys=True)
    elif words:
        sys.argv = words
        sys.path.insert(0, str(Path(words[0]).resolve().parent))
        runpy.run_path(words[0], run_name="__main__")
    else:
        sys.exit(__doc__)


install()

if __name__ == "__main__":
    main()
