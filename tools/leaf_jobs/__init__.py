"""The modules of `tools/conquer.py` and `tools/satcluster-publish`: jobs for the leaves of a
splitting tree, one proof of all, and a folder for referees.

    files      the folder that has the state of a run
    places     the path of the proved program, and its version
    processes  commands: started in process groups, waited for, killed with their children
    leaf       a leaf's job: the commands that it runs in turn, and its record
    closings   which part of a block's log is of which leaf
    run        the leaves that wait, run and are closed; `join` and `cover`
    cell       workers that share what they learn; `weave`
    mending    files of a cell that are spoilt
    race       the job that searches the whole formula, beside the jobs of leaves
    cuts       which leaf is cut in two if a core is idle
    engines    what starts the jobs: this process, make, GNU parallel or Slurm
    receipts   receipts of logs that are of no leaf's job, and receipts that are made anew
    unpacker   packed logs, unpacked to FIFOs for `join`
    endings    signals, and the limit of time
    screen     the lines that are printed
    progress   the line that tells what is closed, and how much time is left
    figures    the numbers of the report
    report     the report, an HTML page, with pictures and CSV beside it
    usage      who has used whose lemmas in a cell
    summary    the last lines at a terminal
    bundle     the folder for referees
    published  `satcluster-publish`
"""
