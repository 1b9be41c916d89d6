"""The folders that trials import from: tools/ (program, tally), trials/programs, the package of python/ with its tests, and
beside these the plain slow model. A trial puts trials/ on its path and imports this module first. The package's library is built
by `pip install ./python`, or named by PMHOST_LIBRARY."""
import os
import sys

ROOT = os.path.dirname(os.path.dirname(os.path.abspath(__file__)))
FIRST = [os.path.join(ROOT, *it.split("/")) for it in ("tools", "trials/programs", "python/src", "python")]
sys.path[1:1] = [it for it in FIRST if it not in sys.path]
PLAIN = os.path.join(ROOT, "python", "tests")
if PLAIN not in sys.path:
    sys.path.append(PLAIN)
