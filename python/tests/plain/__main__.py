"""`python3 -m plain replay|hear|decode|number ..` in python/tests/: what `pmb` does, by the plain model."""
import sys

from . import commandline

sys.exit(commandline.main(sys.argv[1:]))
