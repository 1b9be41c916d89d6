"""Whether this process is the command `pmhost`. An interruption before its `main` begins ends it at once: nothing was sent."""
import os
import signal
import sys


def is_command() -> bool:
    """Whether this process is the command, to whose user a line says more than a traceback. While `python -m` imports the
    package, its first argument is still that option."""
    return sys.argv[:1] == ["-m"] and "pmhost" in sys.orig_argv or os.path.basename(sys.argv[0]) == "pmhost"


def take_interruptions() -> None:
    """From now on an interruption is a KeyboardInterrupt, as a Python program has it from its start."""
    if signal.getsignal(signal.SIGINT) is signal.SIG_DFL:
        signal.signal(signal.SIGINT, signal.default_int_handler)


if is_command() and signal.getsignal(signal.SIGINT) is signal.default_int_handler:
    signal.signal(signal.SIGINT, signal.SIG_DFL)
