"""Tests of the program with servers, clients and terminals, by Python's `unittest` (docs/GATE.md).
"""

import sys

# nothing is left beside the sources
sys.dont_write_bytecode = True
