"""The modules of `tools/satcluster-solver`, which other tools call as they call any SAT solver.

    words       the command line
    known       the options of CaDiCaL, Kissat and MiniSat that are ignored
    sources     the formula: a file, a packed file, or standard input
    kept_files  the folder of --keep
    processes   commands that end with this process, and this process with its parent
    output      what is printed
    result_file what MiniSat writes in the place of a proof
    answer      runs the program, or `conquer.py`, and prints its answer
"""
