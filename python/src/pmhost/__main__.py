"""`python -m pmhost` is the command `pmhost`."""
import sys

from .cli import main

if __name__ == "__main__":
    sys.exit(main())
