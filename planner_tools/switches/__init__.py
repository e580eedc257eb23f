"""The tables of real switches: reading them, and carrying plans out. Every byte that changes a table is decided by
`planner serve`, with which the package `planner` speaks: the library of the same checkout or installation."""
import os
import sys

LIBRARY = os.path.join(os.path.dirname(os.path.dirname(os.path.dirname(os.path.realpath(__file__)))), "library")
if LIBRARY not in sys.path:
    sys.path.insert(0, LIBRARY)
