"""The paths of the plain slow model, tests/plain, and of the trials that draw its texts: the tests that compare with it import
this module first."""
import os
import sys

TESTS = os.path.dirname(os.path.abspath(__file__))
TRIALS = os.path.join(os.path.dirname(os.path.dirname(TESTS)), "trials")
if TRIALS not in sys.path:
    sys.path.append(TRIALS)

import paths  # noqa: E402, F401
