"""What `pmhost faults` tells of each fault, of both hosts, and what it refuses."""

WRITE, READ = "B0 05 04 01 21 CD 34 4C", "B0 06 02 01 21 read 4"
OLD, NEW = "B1 02 00 10 68", "B1 02 CD 34 90"
TAKEN = f"{WRITE}  ok: part taken, acknowledged"
TOLD = f"{READ}  ok: part answer {NEW}, back {NEW}"
STALE = f"{READ}  ok: part answer {OLD}, back {OLD}"
CONFIRMED = "word 1: VOUT_COMMAND 34CD 3.300048V confirmed; the output commands 3.300048V, without limits"


def reads(command):
    """What is read before an order and behind it, where VOUT_COMMAND gives this answer."""
    return [f"{asked}  ok: part answer {answer}, back {answer}" for asked, answer in (
        ("B0 06 02 01 20 read 3", "B1 01 14 2C"), ("B0 06 02 01 01 read 3", "B1 01 80 11"), (READ, command),
        ("B0 06 02 01 24 read 4", "B1 02 00 40 32"), ("B0 06 02 01 2B read 4", "B1 02 00 00 C5"), ("B0 10 read 2", "B1 00 60"))]


BEFORE, BEHIND = reads(OLD), reads(NEW)
DONE = [TAKEN, TOLD, CONFIRMED, "34CD"]
PAGE, PLAIN = "B0 00 01 ED", "B0 21 CD 34 38"
# Faults of an order of 34CD at output 1 by the proved host, behind what it reads before: what is told of the order, the end, and what
# output 1 then holds.
PROVED = [
    ("", DONE),
    ("lost", [f"{WRITE}  lost: part no, not acknowledged", STALE, *DONE]),
    ("cut:3", [f"{WRITE}  cut:3: part refused K1 Frame F2 Short 3, not acknowledged", STALE, *DONE]),
    ("cut:11", [f"{WRITE}  cut:11: part refused K1 Frame F2 Short 3, not acknowledged", STALE, *DONE]),
    ("damaged:3:0", [f"{WRITE}  damaged:3:0: part refused K1 Frame F5 WrongPec 7, acknowledged", STALE, *DONE]),
    ("damaged:0:1", [f"{WRITE}  damaged:0:1: part silent, not acknowledged", STALE, *DONE]),
    ("twice", [f"{WRITE}  twice: part taken, acknowledged", *DONE[1:]]),
    ("mute", [f"{WRITE}  mute: part taken, not acknowledged", *DONE[1:]]),
    ("false", [f"{WRITE}  false: part no, acknowledged", STALE, *DONE]),
    ("ok mute", [TAKEN, f"{READ}  mute: part answer {NEW}, back nothing", *DONE]),
    ("ok,short:2", [TAKEN, f"{READ}  short:2: part answer {NEW}, back B1 02", *DONE]),
    ("ok garbled:2:0", [TAKEN, f"{READ}  garbled:2:0: part answer {NEW}, back B1 02 CC 34 90", *DONE]),
    ("ok cut:3", [TAKEN, f"{READ}  cut:3: part refused K1 Frame F5 WrongPec 2, back nothing", *DONE]),
    ("ok twice", [TAKEN, f"{READ}  twice: part answer {NEW}, back {NEW}", *DONE[2:]]),
    ("ok lost", [TAKEN, f"{READ}  lost: part no, back nothing", *DONE]),
    ("restart", [f"{WRITE}  restart: part taken, acknowledged", *DONE[1:]]),
    ("ok restart", [TAKEN, f"{READ}  restart: part answer {OLD}, back {OLD}", *DONE]),
    ("lost mute " * 3, [f"{WRITE}  lost: part no, not acknowledged", f"{READ}  mute: part answer {OLD}, back nothing"] * 3
     + [STALE, *DONE]),
]
# The same of the plain host; then what output 0 holds, too.
BELIEVES, DOUBTS = (f"word 1: VOUT_COMMAND 34CD {end}" for end in ("acknowledged", "not acknowledged"))
BELIEVED = [
    ("", [f"{PAGE}  ok: part taken, acknowledged", f"{PLAIN}  ok: part taken, acknowledged", BELIEVES, "1000", "34CD"]),
    ("damaged:2:0", [f"{PAGE}  damaged:2:0: part refused K1 Frame F5 WrongPec 3, acknowledged",
                     f"{PLAIN}  ok: part taken, acknowledged", BELIEVES, "34CD", "1000"]),
    ("ok damaged:2:0", [f"{PAGE}  ok: part taken, acknowledged",
                        f"{PLAIN}  damaged:2:0: part refused K1 Frame F5 WrongPec 4, acknowledged", BELIEVES, "1000", "1000"]),
    ("lost lost lost", [*[f"{PAGE}  lost: part no, not acknowledged"] * 3, DOUBTS, "1000", "1000"]),
    ("ok lost lost lost", [f"{PAGE}  ok: part taken, acknowledged", *[f"{PLAIN}  lost: part no, not acknowledged"] * 3,
                           DOUBTS, "1000", "1000"]),
]
ORDER = ["word", "1", "VOUT_COMMAND", "34CD"]
HELD = "output 0 holds 1000; output 1 holds 1000\n"
FORMAT = "  B0 06 02 00 20 read 3  ok: part answer B1 01 14 4E, back B1 01 14 4E\n"
# Jobs beside orders of words: the words, the status, what is told, and what stands on standard error.
JOBS = [
    ("part B0 00 01 ED + part B0 00 / + part restart + part B0 00 / + known 0", 0,
     "part B0 00 01 ED\ntaken\npart B0 00 /\nanswer B1 01 C5\npart restart\nrestarted\npart B0 00 /\nanswer B1 00 C2\nknown 0\n"
     "0 OPERATION any\n0 VOUT_COMMAND any\n0 VOUT_MAX any\n0 VOUT_MARGIN_HIGH any\n0 VOUT_MARGIN_LOW any\n0 VOUT_MIN any\n"
     "- WRITE_PROTECT any\nrestart seen: no\n" + HELD, ""),
    ("learn 0 + band 0", 0,
     f"learn 0\n{FORMAT}learn 0: learned ULINEAR16 -12\nband 0\nband 0: commands 0V to 15.999756V, without limits\n" + HELD, ""),
    ("set 0 5V --limit 0:3.2V:3.465V", 1, f"set 0 5V\n{FORMAT}" + "".join(f"  {asked}  ok: part answer {answer}, back {answer}\n"
        for asked, answer in (("B0 06 02 00 01 read 3", "B1 01 80 73"), ("B0 06 02 00 21 read 4", "B1 02 00 10 41"),
                              ("B0 06 02 00 24 read 4", "B1 02 00 40 1B"), ("B0 06 02 00 2B read 4", "B1 02 00 00 EC"),
                              ("B0 10 read 2", "B1 00 60")))
     + "set 0: refused L4 AboveLimit\n" + HELD, "pmhost: set 0 5V: VOUT_COMMAND: above the output's limits: give a voltage within them\n"),
    ("--plain-host word 0 OPERATION 00 + part B0 06 02 00 01 /", 0,
     "word 0 OPERATION 00\n  B0 00 00 EA  ok: part taken, acknowledged\n  B0 01 00 FF  ok: part taken, acknowledged\n"
     "word 0: OPERATION 00 acknowledged\npart B0 06 02 00 01 /\nanswer B1 01 00 FA\n" + HELD, ""),
    ("--outputs=1 off 0", 0,
     "off 0\n  B0 05 03 00 01 00 8B  ok: part taken, acknowledged\n  B0 06 02 00 01 read 3  ok: part answer B1 01 00 FA, back B1 01 00 FA\n"
     "off 0: OPERATION 00 off confirmed; what the output commands isn't known, since its format wasn't learned\noutput 0 holds 1000\n", ""),
    ("part B1 02 + part B0 21 CD + part b0 fe bb + known 1 + part B0 21 CD 34 38 00 + part B0 05 01 00 21", 1,
     "part B1 02\nsilent\npart B0 21 CD\nrefused K1 Frame F2 Short 3\npart b0 fe bb\nrefused K2 UnsupportedCode\nknown 1\n"
     "1 OPERATION any\n1 VOUT_COMMAND any\n1 VOUT_MAX any\n1 VOUT_MARGIN_HIGH any\n1 VOUT_MARGIN_LOW any\n1 VOUT_MIN any\n"
     "- WRITE_PROTECT any\nrestart seen: no\npart B0 21 CD 34 38 00\nrefused K1 Frame F3 Long 5\npart B0 05 01 00 21\n"
     "refused K1 Frame F4 WrongCount 2\n" + HELD, ""),
]
EXAMPLE = "as word 1 VOUT_COMMAND 34CD"
BESIDE = f"the plain host takes only orders of words, {EXAMPLE}"
NO_OPTION = "the bus with faults has no such option"
# Command lines that aren't carried out, and what they say: status 2.
REFUSED = [
    ([], f"faults: give a job, {EXAMPLE}, or --runs"), (["--runs=1", "known"], f"faults: give a job, {EXAMPLE}, or --runs"),
    (["--strike=broken", "known"], "faults: broken is no fault; pmhost faults --help has them"),
    (["--strike=cut", "known"], "faults: cut is no fault; pmhost faults --help has them"),
    (["--strike=damaged:0:8", "known"], "faults: damaged:0:8 is no fault; pmhost faults --help has them"),
    (["--passes=0", "known"], "faults: passes 0: give a whole number from 1 to 15"),
    (["--passes=16", "known"], "faults: passes 16: give a whole number from 1 to 15"),
    (["--rate=101", "known"], "faults: rate 101: give a whole number from 0 to 100"),
    (["--rate=50", "known"], "faults: --rate is of --seed and --runs, and neither is given"),
    (["--runs=5", "--strike=lost"], "faults: --runs draws faults and tries both hosts: leave --plain-host and --strike out"),
    (["--runs=5", "--plain-host"], "faults: --runs draws faults and tries both hosts: leave --plain-host and --strike out"),
    (["--runs=0"], "faults: runs 0: give a whole number from 1 to 999999999"),
    (["--outputs=9", "known"], "faults: outputs 9: give a whole number from 1 to 8"),
    (["--rails=/no/such/file", "known"], "/no/such/file: No such file or directory"),
    (["--plain-host", "read", "0", "VOUT_COMMAND"], f"faults: read 0 VOUT_COMMAND: {BESIDE}"),
    (["--plain-host", "set", "1", "3.3V"], f"faults: set 1 3.3V: {BESIDE}"),
    (["--plain-host", "word", "-", "WRITE_PROTECT", "00"], f"faults: word - WRITE_PROTECT 00: {BESIDE}"),
    (["--plain-host", *ORDER, "+", "known"], f"faults: known: {BESIDE}"),
    (["word", "2", "VOUT_COMMAND", "34CD"], "word 2 VOUT_COMMAND 34CD: output 2: give 0 to 1, with --outputs 2"),
    (["word", "1", "VOUT_COMMAND", "34"], "word 1 VOUT_COMMAND 34: word 34: give four hexadecimal digits, as 34CD"),
    (["word", "1", "VOUT_COMMAND"], "word: the word, as 34CD, is missing"),
    (["set", "0", "3.3"], "set: voltage 3.3: give its unit, V, mV or uV, as 3.3V"),
    (["known", "+"], "faults: a job is missing beside a +"), (["+", "known"], "faults: a job is missing beside a +"),
    (["--seed=one", "known"], "faults: seed one: give a whole number"),
    (["faults", "known"], "faults: faults: it is no job"), (["capture", "linux"], "faults: capture linux: it uses no bus, and is no job"),
    (["part"], "faults: part: give restart, or a frame in hexadecimal digits, as part B0 00 01 ED"),
    (["part", "B0", "0"], "faults: part B0 0: give restart, or a frame in hexadecimal digits, as part B0 00 01 ED"),
    (["known", "-b", "1"], f"faults: --bus: {NO_OPTION}"), (["known", "--trace=it"], f"faults: --trace: {NO_OPTION}"),
    (["--pass=2", "known"], "--pass: no such option here; pmhost --help shows those of a bus, and COMMAND --help those of a command"),
    (["--outputs=2", "known", "--outputs=2"], "faults: --outputs: it is given twice"),
    (["--passes=2", "known", "--passes=2"], "faults: --passes: it is given twice"),
]
# A file of rails: what stands in it; a job, its status, and the last lines that are told; and calls with files that aren't taken.
RAILS = '[rails.core]\noutput = 0\nvolts = "0.9V"\nlimits = ["0.85V", "1.05V"]\n'
RAILED = [
    (["set", "0", "5V"], 1, ["set 0: refused L4 AboveLimit", "output 0 holds 1000"]),
    (["set", "0", "0.95V"], 0, ["set 0: VOUT_COMMAND 0F33 0.949951V confirmed; the output commands 0.949951V, within 0.85V to 1.05V",
                                "output 0 holds 0F33"]),
]
APPLIED = ["core: the output commands 0.899902V, within 0.85V to 1.05V", "output 0 holds 0E66"]
BOARD = '[parts.a]\nbus = 1\naddress = "58"\noutputs = 1\n' + RAILS + 'part = "a"\n'
OF_BOARD, STAND = "is of a board: give one of one part", "outputs and limits stand in the file of"
WITH_FILES = [
    (["--rails=BOARD", "known"], f"faults: the file of faults {OF_BOARD}"), (["apply", "BOARD"], f"faults: the file of apply {OF_BOARD}"),
    (["--rails=RAILS", "--outputs=2", "known"], f"faults: --outputs: {STAND} faults"),
    (["--outputs=2", "apply", "RAILS"], f"faults: --outputs: {STAND} apply"),
    (["--rails=RAILS", "known", "--outputs=2"], f"--outputs: {STAND} faults"),
    (["--rails=RAILS", "read", "1"], "read 1: output 1: give 0, with --outputs 1"),
]
# What a part hears of the frame B0 03 46 under a fault, and whether the host is told that it was acknowledged.
WRITTEN = [
    ("ok", ["B0 03 46"], True), ("lost", [], False), ("false", [], True), ("cut:2", ["B0 03"], False), ("cut:3", [], False),
    ("cut:5", ["B0 03"], False), ("damaged:1:2", ["B0 07 46"], True), ("damaged:0:0", ["B1 03 46"], False),
    ("damaged:5:7", ["B0 03 C6"], True), ("twice", ["B0 03 46", "B0 03 46"], True), ("mute", ["B0 03 46"], False),
    ("restart", ["restart", "B0 03 46"], True), ("short:1", ["B0 03 46"], True), ("garbled:1:1", ["B0 03 46"], True),
]
# What a part that answers B1 14 ED hears of the request B0 20, and what comes back.
ASKED = [
    ("ok", ["B0 20 /"], "B1 14 ED"), ("lost", [], ""), ("false", [], ""), ("cut:1", ["B0"], "B1 14 ED"), ("cut:2", [], ""),
    ("damaged:1:0", ["B0 21 /"], "B1 14 ED"), ("twice", ["B0 20 /", "B0 20 /"], "B1 14 ED"), ("mute", ["B0 20 /"], ""),
    ("restart", ["restart", "B0 20 /"], "B1 14 ED"), ("short:2", ["B0 20 /"], "B1 14"), ("short:3", ["B0 20 /"], ""),
    ("garbled:1:0", ["B0 20 /"], "B1 15 ED"), ("garbled:4:4", ["B0 20 /"], "B1 04 ED"),
]
