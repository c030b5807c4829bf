#!/usr/bin/env python3
"""Tests of the scripts for SUMO, by subject: tools/tests/test_sumo.py alone, and tools/test.py with all others. Those that need SUMO
are left out where it isn't there, and those that need a built program where JUNCTION (and JUNCTION_CHECK) in the environment
don't name it."""
import os
import sys
import unittest
from pathlib import Path

sys.path.insert(0, str(Path(__file__).resolve().parent.parent))
sys.dont_write_bytecode = True
os.environ.setdefault("SUMO_HOME", "/usr/share/sumo")
import test_sumo_guarded
import test_sumo_loop
import test_sumo_nets
import test_sumo_programs
import test_sumo_sites
import test_sumo_study
from test_sumo_guarded import *
from test_sumo_loop import *
from test_sumo_nets import *
from test_sumo_programs import *
from test_sumo_sites import *
from test_sumo_study import *

__all__ = [name for tests in (test_sumo_guarded, test_sumo_loop, test_sumo_nets, test_sumo_programs,
                                   test_sumo_sites, test_sumo_study) for name in tests.__all__]

if __name__ == "__main__":
    unittest.main()
