"""Sentences that tell what is wrong with a file or a command line. No answer depends on them.

    words   what the program prints with --explain, and why a file cannot be read or written
    looks   what a file is by its first bytes: packed, or a formula
    faults  the sentences in the source of the crate `explanations`, each with an example of its
            fault: for docs/FAULTS.md and for tests
"""
