#!/usr/bin/env python3
"""`pmhost probe` and `read` over the four PMBus parts of QEMU, which nobody of this project wrote: isl69260, max34451, adm1272, raa229004.

    trials/qemu/parts.py

No processor runs: the bus is driven line by line over qtest. It wants qemu-system-arm (Debian's qemu-system-arm), and the package's library
(PMHOST_LIBRARY). None of the four has packet error codes, and each answers PAGE_PLUS_READ, which it doesn't know, with FFh. The last line
is `N passed, M failed`.
"""
import contextlib
import io
import os
import sys

HERE = os.path.dirname(os.path.abspath(__file__))
sys.path[1:1] = [HERE, os.path.dirname(HERE)]
import needs  # noqa: E402
import paths  # noqa: E402, F401
from program import answer_help  # noqa: E402
from tally import Tally  # noqa: E402

# Of each part its address, and PMBUS_REVISION as its data sheet has it: once more, and with the packet error code that would be right.
PARTS = {"isl69260": ("58", "33", "A3"), "max34451": ("59", "11", "4B"), "adm1272": ("5A", "22", "D8"), "raa229004": ("5B", "33", "A9")}
# The machine has a clock chip, too.
CLOCK = "68"
NOTED = "the part may note in STATUS_CML that it was asked for what it lacks, and pull SMBALERT#"
NO_PAGE_PLUS = "read 0: no good {0}\npmhost: read 0 {0}: nothing but FFh\n"


def rows():
    """Of each call its name, its words, its status and what it says, by hand."""
    for name, (address, revision, code) in PARTS.items():
        here = ["-a", address, "--outputs", "2", "--no-limit"]
        yield f"{name} probe", [*here, "probe"], 1, (
            f"pmhost: probe: {NOTED}\nprobe: 3 answers were nothing but FFh, which counts as none\n"
            f"probe: no PEC (PMBUS_REVISION gave {revision} {revision}, with PEC it is {revision} {code}): "
            "this host can't drive the part\n")
        for register in ("STATUS_WORD", "READ_VOUT"):
            yield f"{name} read {register}", [*here, "read", "0", register], 1, NO_PAGE_PLUS.format(register)
    answers = "it answers, and is no PMBus part with packet error codes: no good CAPABILITY (F5 WrongPec)"
    yield "probe of the bus", ["probe"], 1, (
        f"pmhost: probe: a device that isn't a PMBus part may take the command byte for a register's number; {NOTED}\n"
        + "".join(f"probe: {address}: {answers}\n" for address in [*(it[0] for it in PARTS.values()), CLOCK])
        + "probe: left out: below 08, 0C, 28, 37, 61, above 77\npmhost: probe: no PMBus part answers on this bus\n")


def main():
    answer_help(__doc__)
    if not needs.are_there("qemu-system-arm"):
        return Tally().end()
    import qtest
    from pmhost import cli
    from tests.kernel import Calls
    tally = Tally()
    with qtest.Machine({f"0x{address}": name for name, (address, *_) in PARTS.items()}) as machine:
        for name, words, status, text in rows():
            said = io.StringIO()
            with contextlib.redirect_stdout(said), contextlib.redirect_stderr(said):
                found = cli.main(["-b", "0", *words], Calls({0: machine}))
            tally.tell(name, [] if (found, said.getvalue()) == (status, text) else [f"status {found}\n{said.getvalue()}"])
    return tally.end()


if __name__ == "__main__":
    sys.exit(main())
