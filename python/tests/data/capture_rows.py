"""Captures and their traces, texts that are none, command lines, frames and their commands."""

# The lines of a capture's head, which stand before its packets; how many characters a long text has, and how many KiB of memory it
# may take more than a short one, which is less than its trace has.
HEADS = {"sigrok": 0, "linux": 0, "saleae": 1}
LONG, MOST_GROWTH = 3_000_000, 500
# How each format is read: the options behind its address, and its capture.
READINGS = [(form, words, "bus.samples" if form == "sigrok" else f"bus.{form}") for form in HEADS for words in (
    [], ["--times", "--samplerate=1MHz"] if form == "sigrok" else ["--times"])]
# When the packets of bus.trace begin, in microseconds: as bus.linux and bus.saleae have them written, and as the waveform
# is drawn, where a write of n bytes takes 58 + 90 n and a read 68 + 90 n.
TIMES = {"linux": [0, 42, 126, 168, 210, 252, 336, 420], "saleae": [0, 990, 2277, 3267, 4257, 4851, 5643, 7227],
         "sigrok": [0, 778, 1746, 2524, 3302, 3720, 4238, 5476]}
CAPTURES = [("bus.samples", "sigrok", "bus.trace"), ("bus.linux", "linux", "bus.trace"), ("bus.saleae", "saleae", "bus.trace"),
            ("faults.sigrok", "sigrok", "faults.trace"), ("faults.saleae", "saleae", "faults.trace"),
            ("faults.linux", "linux", "faults_of_linux.trace"),
            ("kernel.sigrok", "sigrok", "kernel.trace"), ("kernel.linux", "linux", "kernel_of_linux.trace")]
SALEAE = "type,ack,address,read,data\nstart,,,,\n"
WRITE = "i2c_write: i2c-1 #0 a=058 f=0000 l=1 [03]\n"
# Short captures that are written here, and the whole trace of each.
SHORT = [
    # A start without a stop before it begins a packet: the one before has no stop.
    ("sigrok", "i2c-1: Start\ni2c-1: Address write: B0\ni2c-1: Data write: 03\ni2c-1: Start\ni2c-1: Address write: B0\n"
               "i2c-1: Data write: 15\ni2c-1: Stop\n", ["# no stop: B0 03", "B0 15"]),
    ("sigrok", "i2c-1: Start\ni2c-1: Address write: B0\ni2c-1: Stop\ni2c-1: Address write: B0\ni2c-1: Stop\n", ["B0"]),
    ("sigrok", "i2c-1: Start\ni2c-1: Address write: B0\ni2c-1: Data write: 03\n", ["# no stop: B0 03"]),
    ("sigrok", "i2c-1: Start\ni2c-1: Address read: B1\ni2c-1: Data read: 03\ni2c-1: Stop\n", ["# a read alone: B1 03"]),
    ("sigrok", "i2c-1: Start\ni2c-1: Address write: B0\ni2c-1: Start repeat\ni2c-1: Address read: B3\ni2c-1: Stop\n",
     ["# the second part is no read of the device: B0 / B3"]),
    ("sigrok", "i2c-1: Start\ni2c-1: Address write: B0\ni2c-1: Data write: 03\ni2c-1: NACK\ni2c-1: Data write: 46\ni2c-1: NACK\n"
               "i2c-1: Stop\n", ["# byte 1 wasn't acknowledged", "B0 03 46"]),
    ("sigrok", "i2c-1: Start\ni2c-1: Start repeat\ni2c-1: Address write: B0\ni2c-1: Stop\n", ["# a part with no byte:  / B0"]),
    # Bytes that the kernel cuts off are missed, in a write and in a reply.
    ("linux", "i2c_write: i2c-1 #0 a=058 f=0000 l=1 [05]\ni2c_read: i2c-1 #1 a=058 f=0001 l=64\n"
              "i2c_reply: i2c-1 #1 a=058 f=0001 l=64 [" + "-".join(["00"] * 32) + "]\ni2c_result: i2c-1 n=2 ret=2\n",
     ["# the kernel shows 32 of 64 bytes: B0 05 / B1" + " 00" * 32]),
    ("linux", "i2c_write: i2c-1 #0 a=058 f=0000 l=40 [05-06]\ni2c_result: i2c-1 n=1 ret=1\n",
     ["# the kernel shows 2 of 40 bytes: B0 05 06"]),
    ("linux", WRITE, ["# no result: B0 03"]),
    ("linux", WRITE + "i2c_result: i2c-1 n=1 ret=-6\n", ["# failed (-6): B0 03"]),
    ("linux", WRITE + "i2c_result: i2c-1 n=2 ret=1\n", ["# failed (1 of 2): B0 03"]),
    ("linux", WRITE + "i2c_result: i2c-1 n=2 ret=2\n", ["# the capture shows 1 of 2 messages: B0 03"]),
    # Where the kernel dropped events, in a packet and between two.
    ("linux", WRITE + "CPU:1 [LOST 2 EVENTS]\ni2c_result: i2c-1 n=2 ret=2\n" + WRITE + "i2c_result: i2c-1 n=1 ret=1\n",
     ["# the kernel dropped events: B0 03", "B0 03"]),
    ("linux", WRITE + "i2c_result: i2c-1 n=1 ret=1\nCPU:1 [LOST EVENTS]\n" + WRITE + "i2c_result: i2c-1 n=1 ret=1\n",
     ["B0 03", "# the kernel dropped events", "B0 03"]),
    ("linux", WRITE.replace("f=0000", "f=0010") + "i2c_result: i2c-1 n=1 ret=1\n", ["# an address of ten bits: B0 03"]),
    ("linux", "i2c_result: i2c-1 n=1 ret=1\n" + WRITE + "i2c_result: i2c-1 n=1 ret=1\n", ["B0 03"]),
    ("linux", "smbus_write: i2c-1 a=058 f=0000 c=3 BYTE l=1 [03]\n" + WRITE + "i2c_result: i2c-1 n=1 ret=1\n", ["B0 03"]),
    ("saleae", SALEAE + "address,true,0x58,false,\nstart,,,,\naddress,true,0x58,true,\ndata,false,,,0x00\nstop,,,,\n",
     ["B0 / B1 00"]),
    ("saleae", SALEAE + "address,true,0x58,false,\ndata,true,,,0x03\n", ["# no stop: B0 03"]),
]
# The same with a device's address, of which the first part of a packet decides.
ADDRESSED = [
    ("sigrok", "i2c-1: Start\ni2c-1: Address write: B0\ni2c-1: Start repeat\ni2c-1: Address read: B3\ni2c-1: Stop\n",
     ["# the second part is no read of the device: B0 / B3"]),
    ("sigrok", "i2c-1: Start\ni2c-1: Address write: B2\ni2c-1: Start repeat\ni2c-1: Address read: B1\ni2c-1: Stop\n",
     ["# another device: B2 / B1"]),
    ("sigrok", "i2c-1: Start\ni2c-1: Stop\n", ["# a part with no byte: "]),
    ("saleae", SALEAE + "address,true,0x58,false,\nerror,,,,\ndata,true,,,0x03\nstop,,,,\n", ["B0 03"]),
]
# A packet on an adapter, to an address.
SENT = "i2c_write: i2c-{0} #0 a={1} f=0000 l=1 [03]\ni2c_result: i2c-{0} n=1 ret=1\n"
# Texts that are no captures, and why.
REFUSED = [
    ("sigrok", "", "no packet: the text is empty"), ("sigrok", "any\nwords\n", "no packet"),
    ("sigrok", f"# any words\n{WRITE}", "no packet: line 2 is of a capture of the kind linux"),
    ("saleae", f"# tracer: nop\n{WRITE}", "the first line doesn't name the columns type, ack, address, read and data: line 1 is of a "
                                          "capture of the kind linux"),
    ("sigrok", f"{SALEAE}stop,,,,\n", "no packet: line 1 is of a capture of the kind saleae"),
    ("sigrok", '"type","start_time","ack","address","read","data"\n', "no packet: line 1 is of a capture of the kind saleae"),
    ("linux", "i2c-1: Start\n", "no packet: line 1 is of a capture of the kind sigrok"),
    ("linux", "# a trace\nB0 06 02 00 21 / B1 02 CD 34 B9\n", "no packet: line 2 is of a trace, which pmb decode reads"),
    ("sigrok", "$timescale 1 us $end\n#0\n", "no packet: line 1 is of a waveform (VCD), which sigrok-cli reads"),
    ("linux", "i2c_write: i2c-1 0x58", "line 1: no message of the kernel"),
    ("linux", "i2c_result: i2c-1 none", "line 1: no result of the kernel"), ("saleae", "type,data\n", "the first line"),
    ("saleae", "i2c-1: Start\ni2c-1: Stop\n", "the first line doesn't name the columns type, ack, address, read and data: line 1 is of a "
                                              "capture of the kind sigrok"),
    ("sigrok", "i2c-1: Start\ni2c-1: Address read: 58\n", "line 2: the address has no direction bit"),
    ("saleae", f"{SALEAE}address,true,here,false,\n", "line 3: no byte in the column address"),
    ("saleae", f"{SALEAE}address,true\n", "line 3: no byte in the column address"),
    ("saleae", f"{SALEAE}data,true,,,0x134\n", "line 3: no byte in the column data"),
    ("saleae", f"{SALEAE}address,true,64,false,\n", "line 3: no byte in the column address: export it in hexadecimal, as 0x58"),
    ("saleae", f"name,{SALEAE}".replace("start", "I2C,start") + 'I2C [1],data,true,,,0xFF\n',
     "line 3: rows of I2C and of I2C [1]: export the table of one analyser"),
    ("linux", "smbus_write: i2c-1 a=058 f=0000 c=21 WORD_DATA l=2 [cd-34]\n",
     "no packet: the events smbus_ show no packet error code; capture those of i2c_"),
    ("linux", f"{SENT.format(0, '058')}{SENT.format(1, '059')}{SENT.format(1, '058')}",
     "address 58 is on i2c-0 and on i2c-1: give --bus=0 or --bus=1"),
    ("sigrok", "i2c-1: Start\ni2c-2: Start\n", "line 2 is of i2c-2, and the lines before are of i2c-1: keep the lines of one"),
]
EVENT = "2210.{}: i2c_write: i2c-1 #0 a=058 f=0000 l=1 [03]\n2210.{}: i2c_result: i2c-1 n=1 ret=1\n"
TIMED = "type,start_time,ack,address,read,data\n"
# Texts without good times, where these are asked for, and why not.
UNTIMED = [
    ("sigrok", "i2c-1: Start\n", "line 1: no number of a sample: give sigrok-cli --protocol-decoder-samplenum"),
    ("sigrok", "9-9 i2c-1: Start\n9-9 i2c-1: Stop\n8-8 i2c-1: Start\n", "line 3: its time is before that of the first packet"),
    ("sigrok", "0-0 i2c-1: Start\n0-0 i2c-1: Stop\n" + "9" * 18 + "-0 i2c-1: Start\n", "line 3: its time has more than 18 digits"),
    ("linux", " 00221011: i2c_write: i2c-1 #0 a=058 f=0000 l=1 [03]", "line 1: no time in seconds before the event"),
    ("linux", (" " + EVENT).format("200000", "200001") + (" " + EVENT).format("100000", "100001"), "line 3: its time is before"),
    ("saleae", f"{SALEAE}", "the first line doesn't name the column start_time"),
    ("saleae", f"{TIMED}start,2026-11-26T10:00:00.5+00:00,,,,", "line 2: no seconds in the column start_time"),
    ("saleae", f"{TIMED}start,1e999999999,,,,", "line 2: no seconds in the column start_time"),
    ("saleae", f"{TIMED}start,0,,,,\nstop,0,,,,\nstart,1e12,,,,", "line 4: its time has more than 18 digits"),
    ("saleae", f"{TIMED}start\n", "line 2: no seconds in the column start_time"),
]
# The SHA-256 of the waveforms of examples/bus.trace and of faults.bus, of which sigrok-cli 0.7.2 made bus.samples and faults.sigrok.
WAVEFORM = "39c36b8f0da584a9c8dc76affc846fe3ce5f6ea3b0cd9c998835e36b970b9274"
FAULTY_WAVEFORM = "631e87c54fd23184fb75c8da6f2863a45a5da367d0038ae7390d8d497863e9c3"
# What `decode` counts of the traces of faults: an address that nobody acknowledged is no packet, and no fault of one.
COUNTS = [("faults.trace", "lines 4 accepted 3 faults 1 bad 0"),
          ("faults_of_linux.trace", "lines 1 accepted 1 faults 0 bad 0")]
# How transfers that fail are told.
FAILED = [("linux", "# failed (1 of 2): B0 06 02 00 21 / B1"), ("linux", "# failed (-6): B0"),
          ("sigrok", "# no device acknowledged the address: B0"), ("saleae", "# no device acknowledged the address: B0")]
# Texts that `pmhost capture waveform` doesn't draw, and why.
UNDRAWN = [("", "no packet"), ("# a comment\n\n", "no packet"),
           ("i2c-1: Start\n", "line 1: no packet, as B0 03 46: give a trace, made without --times"),
           ("# a trace with times\n0 B0 03 46\n", "line 2: no packet, as B0 03 46: give a trace, made without --times")]
# Wrong command lines of `pmhost capture`, and what they say: status 2, and nothing on standard output.
HEXADECIMAL = "give one from 08 to 77, in hexadecimal"
RATE = "give the samples a second, as `sigrok-cli -i FILE --show` has them: 1000000, or 1MHz"
WRONG = [
    ("linux --bus=x", "capture linux: bus x: give the number of /dev/i2c-N, as 1"),
    ("linux --bus=model", "capture linux: bus model: give the number of /dev/i2c-N, as 1"),
    ("sigrok --bus=1", "--bus: no such option here; pmhost --help shows those of a bus, and COMMAND --help those of a command"),
    ("linux --bus=1 --bus=2", "capture linux: --bus: it stands twice"),
    ("linux --address=80", f"capture linux: address 80: {HEXADECIMAL}: on the wire 80 is 40h"),
    ("linux --address=0xB0", f"capture linux: address 0xB0: {HEXADECIMAL}: on the wire B0 is 58h"),
    ("linux --address=07", f"capture linux: address 07: {HEXADECIMAL}, as 58"),
    ("linux -a 58 --address=58", "capture linux: --address: it stands twice"),
    ("linux --times --times", "capture linux: --times: it stands twice"),
    ("linux --times=1", "capture linux: --times: it takes no value"),
    ("linux --address", "capture linux: --address: its value is missing"),
    ("linux --adress=58", "--adress=58: no such option; --help shows which there are"),
    ("linux --time", "--time: no such option; --help shows which there are"),
    ("linux bus.linux", "capture linux: bus.linux: a word too many: the text is read from standard input, as < bus.linux"),
    ("linux --times --samplerate=1000000", "--samplerate: no such option here; pmhost --help shows those of a bus, and COMMAND --help those of a command"),
    ("sigrok --times", "capture sigrok: the times of sigrok are numbers of samples: give --samplerate=RATE, as "
                       "`sigrok-cli -i FILE --show` has it"),
    ("sigrok --times --samplerate=0", f"capture sigrok: samplerate 0: {RATE}"),
    ("sigrok --times --samplerate=1Mhz", f"capture sigrok: samplerate 1Mhz: {RATE}"),
    ("sigrok --samplerate=1000000", "capture sigrok: --samplerate is of --times, which isn't given"),
    ("--address=58 linux", "--address: no such option here; pmhost --help shows those of a bus, and COMMAND --help those of a command"),
    ("vcd", "capture: vcd: no kind; there are sigrok, linux, saleae, i2ctransfer, waveform"),
    ("", "capture: the kind, as sigrok, is missing"),
    ("i2ctransfer", "capture i2ctransfer: give a bus, as 1, with --run after it to run the commands; or --back"),
    ("i2ctransfer --back 1", "capture i2ctransfer: --back stands by itself: it needs no bus, and runs nothing"),
    ("i2ctransfer 1 --share-bus", "capture i2ctransfer: --share-bus is of --run, which isn't given"),
    ("i2ctransfer --back --run", "capture i2ctransfer: --back stands by itself: it needs no bus, and runs nothing"),
    ("i2ctransfer 1 2", "2: a word too many"),
    ("i2ctransfer one", "capture i2ctransfer: bus one: give the number of /dev/i2c-N, as 1"),
    ("waveform bus.trace", "capture waveform: bus.trace: a word too many: the text is read from standard input, as < bus.trace"),
]
# A packet that never ends, and one of too many bytes: neither fills the memory, and no line is too long for `decode`.
ENDLESS = [("i2c-1: Start\ni2c-1: Address write: B0\n" + "i2c-1: Data write: 00\n" * 5000 + "i2c-1: Stop\n",
            "# a part of more than 300 bytes: B0 00"),
           ("i2c-1: Start\ni2c-1: Address write: B0\ni2c-1: Start repeat\ni2c-1: Address read: B1\n" + "i2c-1: Data read: 00\n" * 5000
            + "i2c-1: Stop\n", "# a part of more than 300 bytes: B0 / B1 00"),
           ("i2c-1: Start\ni2c-1: Address write: B0\n" + "i2c-1: Data write: 00\n" * 299 + "i2c-1: Stop\n", "B0 00 00"),
           ("i2c-1: Start\ni2c-1: Address write: B0\n" + "i2c-1: Data write: 00\n" * 300 + "i2c-1: Stop\n",
            "# a part of more than 300 bytes: B0 00"),
           ("i2c-1: Start\ni2c-1: Address write: B0\n" + "i2c-1: Start repeat\ni2c-1: Address read: B1\n" * 5000
            + "i2c-1: Stop\n", "# 5001 parts: B0 / B1 / B1 / B1")]
# Frames of `hear`, the command of each, and the line of the trace that comes of it.
FRAMES = [
    ("B0 00 01 ED", "w3@0x58 0x00 0x01 0xed", "B0 00 01 ED"),
    ("B0 06 02 00 21 /", "w4@0x58 0x06 0x02 0x00 0x21 r4", "B0 06 02 00 21 / B1 02 00 10 41"),
    ("B0 05 04 00 21 CD 34 5A", "w7@0x58 0x05 0x04 0x00 0x21 0xcd 0x34 0x5a", "B0 05 04 00 21 CD 34 5A"),
    ("B0 06 02 00 21 /", "w4@0x58 0x06 0x02 0x00 0x21 r4", "B0 06 02 00 21 / B1 02 CD 34 B9"),
    ("B0 20 /", "w1@0x58 0x20 r2", "B0 20 / B1 14 ED"),
    ("B0 88 /", "w1@0x58 0x88 r3", "B0 88 / B1 00 00 C1"),
    ("B0 30 02 21 00 /", "w4@0x58 0x30 0x02 0x21 0x00 r7", None),
    ("A0 03 46", "w2@0x50 0x03 0x46", None),
    ("B0 03 46", "w2@0x58 0x03 0x46", "B0 03 46"),
]
BAD_HEX = "X2 BadHex: give pairs of hexadecimal digits, as B0 03 46"
SYNTAX = "X1 Syntax: give a frame, with a / after it if a read follows, as B0 20 /"
FAULTY = [("B0 9", f"line 1: {BAD_HEX}"), ("\nB0 20 / 1", f"line 2: {SYNTAX}"), ("/", f"line 1: {SYNTAX}"),
          ("B1 20 /", "line 1: F1 NotOurs: the first byte is an address with its direction bit, which is 0"),
          ("B0 99 /", "line 1: F6 UnknownCode: a code that isn't in the command table"),
          ("B0 06 /", "line 1: F2 Short: too few bytes")]
NO_COMMANDS = ["i2ctransfer -y 7 w3@0x58 0x21", "i2cset -y 7 0x58 0x21", "i2ctransfer -y 7 w1@0xb0 0x21"]
WARNING = "echo 'Warning: only {} messages were sent' >&2"
READ = "B0 19 /\n"
# Runs over a shell script that stands in for i2ctransfer: the words, the frames, the script, and then the
# status, standard output and standard error.
TRANSFERS = [
    ("7 --run", READ, "echo 0x80 0xd3", 0, "B0 19 / B1 80 D3\n", ""),
    ("7 --run", "B0 03 5C\n", "true", 0, "B0 03 5C\n", ""),
    ("7 --run", "restart\nB0 03 5C\n", "true", 0, "# restart\nB0 03 5C\n", ""),
    ("7 --run", "B0 03 5C\n", WARNING.format("0/1"), 1, "# failed: B0 03 5C: Warning: only 0/1 messages were sent\n", ""),
    ("7 --run", READ, WARNING.format("0/2"), 1, "# failed: B0 19: Warning: only 0/2 messages were sent\n", ""),
    ("7 --run", READ, WARNING.format("1/2"), 1, "# failed: B0 19: Warning: only 1/2 messages were sent\n", ""),
    ("7 --run", READ, "true", 1, "# failed: B0 19: 0 of 2 bytes came back\n", ""),
    ("7 --run", READ, "echo 0x80", 1, "# failed: B0 19: 0x80\n", ""),
    ("7 --run", READ, "echo 'Error: Sending messages failed: Remote I/O error' >&2; exit 1", 1,
     "# failed: B0 19: Error: Sending messages failed: Remote I/O error\n", ""),
    ("7 --run", READ + "B0 9\n", "echo 0x80 0xd3", 1, "", f"pmhost: capture i2ctransfer: line 2: {BAD_HEX}\n"),
    ("7", "B0 9\n", "true", 1, "", f"pmhost: capture i2ctransfer: line 1: {BAD_HEX}\n"),
]
# Streams that bash closes or fills: the status and standard error.
STREAMS = [
    ("<&-", ["capture", "i2ctransfer", "7"], 2, "pmhost: standard input is closed\n"),
    (">&-", ["capture", "i2ctransfer", "7"], 2, "pmhost: standard output is closed: nothing was sent\n"),
    ("> /dev/full", ["capture", "i2ctransfer", "7"], 2, "pmhost: standard output: No space left on device\n"),
    ("| true; exit ${PIPESTATUS[0]}", ["capture", "i2ctransfer", "7"], 2, "pmhost: standard output: Broken pipe\n"),
    ("> /dev/full", ["capture", "linux"], 1, "pmhost: standard output: No space left on device\n"),
    ("<&-", ["capture", "linux"], 2, "pmhost: standard input is closed\n"),
    ("0> /dev/null", ["capture", "linux"], 1, "pmhost: standard input: Bad file descriptor\n"),
    (">&-", ["capture", "linux"], 2, "pmhost: standard output is closed: nothing was sent\n"),
]
# Answers as i2ctransfer does, by what a model part says behind two named pipes.
STAND_IN = """#!/usr/bin/env python3
import os, sys
words = [word for word in sys.argv[3:] if not word.startswith("r")]
count = [int(word[1:]) for word in sys.argv[3:] if word.startswith("r")]
length, address = words[0][1:].split("@")
if sys.argv[1:3] != ["-y", "7"] or int(length) != len(words) - 1:
    sys.exit("Error: not called as it should be")
frame = [int(address, 16) * 2, *(int(word, 16) for word in words[1:])]
with open(os.environ["SAID"], "w") as said:
    said.write(" ".join(f"{byte:02X}" for byte in frame) + (" /" if count else "") + "\\n")
with open(os.environ["ANSWERED"]) as answered:
    answer = answered.readline().split()
if answer[0] == "silent" or count and answer[0] != "answer":
    sys.exit("Error: Sending messages failed: No such device or address")
if count:
    print(" ".join("0x" + byte.lower() for byte in (answer[2:] + ["FF"] * 300)[:count[0]]))
"""
