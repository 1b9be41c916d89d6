"""Captures of a bus as traces, with the times of their packets; frames as commands of i2ctransfer, and back, and run."""
import hashlib
import os
import re
import stat
import subprocess
import tempfile
import threading
import unittest
import unittest.mock

from pmhost import ModelPart, Output
from pmhost.capture import NoCapture, clock_of, i2ctransfer, trace
from pmhost.capture.vcd import waveform
from pmhost.faults import heard_by

from . import running
from .data.capture_rows import (ADDRESSED, CAPTURES, COUNTS, ENDLESS, FAILED, FAULTY, FAULTY_WAVEFORM, FRAMES, NO_COMMANDS,
                                READINGS, REFUSED, SHORT, STAND_IN, TIMES, TRANSFERS, UNDRAWN, UNTIMED, WAVEFORM, WRONG)
from .running import DATA, EXAMPLES, called, needs, needs_tool, pmhost, stored

FOLDER = os.path.join(DATA, "captures")


def capture(name):
    return stored(FOLDER, name)


def traced(form, text, address=None, bus=None, clock=None):
    return [*trace(form, text.splitlines(), address, bus, clock)]


def packets(lines):
    return [line for line in lines if not line.startswith("#")]


def decoded(text, *options):
    """What `pmb decode` says, line by line."""
    ran = subprocess.run([running.path_of("pmb"), "decode", *options], input=text, capture_output=True, text=True)
    return ran.stdout.splitlines()


class Waveforms(unittest.TestCase):
    """The stored waveforms are those of the packets, and what sigrok-cli makes of them."""

    def test_waveforms_are_drawn_from_their_packets(self):
        for text, wanted in (stored(EXAMPLES, "bus.trace"), WAVEFORM), (capture("faults.bus"), FAULTY_WAVEFORM):
            with self.subTest(text):
                drawn = waveform(text)
                self.assertEqual(hashlib.sha256(drawn.encode()).hexdigest(), wanted)
                self.assertEqual(pmhost("capture", "waveform", text=text), (0, drawn, ""))

    def test_bytes_need_no_spaces_between_them(self):
        spaced = waveform("B0 06 02 00 21 / B1 02! CD 34 B9\n")
        for line in "B006020021/B102!CD34B9", "B0 0602 0021/ B1 02!CD 34B9":
            self.assertEqual(waveform(f"{line}\n"), spaced)

    def test_texts_that_are_no_traces_aren_t_drawn(self):
        for text, why in UNDRAWN:
            with self.subTest(text):
                self.assertEqual(called("capture", "waveform", text=text), (1, "", f"pmhost: capture waveform: {why}\n"))

    @needs_tool("sigrok-cli")
    def test_sigrok_reads_them_as_stored(self):
        bus = waveform(stored(EXAMPLES, "bus.trace"))
        for drawn, options, wanted in ((capture("kernel.vcd"), [], "kernel.sigrok"),
                                       (waveform(capture("faults.bus")), [], "faults.sigrok"),
                                       (bus, ["--protocol-decoder-samplenum"], "bus.samples")):
            with self.subTest(wanted), tempfile.NamedTemporaryFile("w", suffix=".vcd") as file:
                file.write(drawn)
                file.flush()
                ran = subprocess.run(["sigrok-cli", "-I", "vcd", "-i", file.name, "-P",
                                      "i2c:scl=SCL:sda=SDA:address_format=unshifted", "-A", "i2c=addr-data", *options],
                                     capture_output=True, text=True)
                self.assertEqual(ran.stdout, capture(wanted), ran.stderr)
        with tempfile.NamedTemporaryFile("w", suffix=".vcd") as file:
            file.write(bus)
            file.flush()
            shown = subprocess.run(["sigrok-cli", "-i", file.name, "--show"], capture_output=True, text=True)
        self.assertIn("Samplerate: 1000000\n", shown.stdout)


class Traces(unittest.TestCase):
    """Captures give their traces, and texts that are none say why."""

    def test_captures_give_their_traces(self):
        for name, form, wanted in CAPTURES:
            with self.subTest(name):
                self.assertEqual("\n".join(traced(form, capture(name), 0x58)) + "\n", capture(wanted))

    def test_short_captures_give_their_traces(self):
        for form, text, wanted in SHORT:
            with self.subTest(text):
                self.assertEqual(traced(form, text), wanted)
        for form, text, wanted in ADDRESSED:
            with self.subTest(text):
                self.assertEqual(traced(form, text, 0x58), wanted)

    def test_without_an_address_all_devices_are_told(self):
        every = traced("linux", capture("faults.linux"))
        self.assertIn("A0 00 / A1 12", every)
        self.assertIn("A0 00 01", every)

    def test_texts_that_are_no_captures_say_why(self):
        for form, text, why in REFUSED:
            with self.subTest(text), self.assertRaises(NoCapture) as refused:
                traced(form, text)
            self.assertTrue(str(refused.exception).startswith(why), refused.exception)

    def test_an_endless_packet_is_one_short_line(self):
        for text, line in ENDLESS:
            found = traced("sigrok", text)
            self.assertEqual(len(found), 1)
            self.assertTrue(found[0].startswith(line), found[0][:80])
            self.assertLessEqual(len(found[0]), 1000)

    def test_failed_transfers_are_comments(self):
        for form, line in FAILED:
            with self.subTest(line):
                found = traced(form, capture(f"faults.{form}"), 0x58)
                self.assertIn(line, found)
                self.assertNotIn("B0", found)

    def test_failed_transfers_have_their_times(self):
        found = traced("linux", capture("faults.linux"), 0x58, None, clock_of("linux"))
        for number in "-6", "-121", "1 of 2":
            self.assertTrue(any(re.match(rf"# failed at \d+ \({number}\): B0", line) for line in found), found)

    @needs("pmb")
    def test_decode_counts_no_fault_that_nobody_made(self):
        for name, wanted in COUNTS:
            with self.subTest(name):
                self.assertEqual(decoded(capture(name))[-1:], [wanted])

    @needs("pmb")
    def test_the_driver_s_word_for_the_other_page_is_marked(self):
        packets_of_it = "".join(stored(EXAMPLES, "captures", "ltc2972.trace").splitlines(keepends=True)[2:])
        told = decoded(packets_of_it, "--all", "--values", "--pages", "--vout=ulinear16:-12")
        self.assertIn("20 58 page 0? VOUT_COMMAND write 1CCD 1.800048 V", told)
        self.assertEqual([line for line in told if "VOUT_COMMAND write 3000" in line],
                         ["46 58 page 1? VOUT_COMMAND write 3000 3 V WRONG PAGE? lines 39 and 46"])
        marked = [line for line in told if "WRONG PAGE?" in line]
        self.assertEqual([line.split()[0] for line in marked], ["43", "44", "45", "46"])

    @needs("pmb")
    def test_the_kernel_s_capture_of_that_run_has_the_mark_too(self):
        text = "".join(line + "\n" for line in traced("linux", capture("sharpest.linux"), 0x58))
        told = decoded(text, "--all", "--values", "--pages", "--vout=ulinear16:-12")
        self.assertEqual([line for line in told if "VOUT_COMMAND write 3000" in line],
                         ["7 58 page 1? VOUT_COMMAND write 3000 3 V WRONG PAGE? lines 3 and 7"])

    @needs("pmb")
    def test_captures_among_the_examples_are_told_as_stored(self):
        for name in ("ltc2972", "ltc2977", "ltc3880", "raa228", "tps546d24a"):
            with self.subTest(name):
                text = stored(EXAMPLES, "captures", f"{name}.trace")
                options = text.splitlines()[1].removeprefix("# pmb decode ").split()
                self.assertEqual("".join(line + "\n" for line in decoded(text, *options)), stored(EXAMPLES, "captures", f"{name}.lines"))

    def test_one_bus_of_several_has_each_packet_once(self):
        both = "".join(line + "\n" + line.replace("i2c-1 ", "i2c-0 ") + "\n" for line in capture("bus.linux").splitlines()
                       if "i2c-1 " in line)
        once = capture("bus.trace").splitlines()
        for bus, wanted in ((None, [line for line in once for _ in (0, 1)]), (1, once), (0, once)):
            self.assertEqual(traced("linux", both, 0x58, bus), wanted)
        self.assertEqual(called("capture", "linux", "--bus=1", "--address=58", text=both), (0, capture("bus.trace"), ""))
        self.assertEqual(called("capture", "linux", "--bus=7", text=both),
                         (1, "", "pmhost: no linux capture: no packet: line 1 is of i2c-1, not of i2c-7\n"))

    def test_captures_of_a_kernel_tell_what_went_over_its_bus(self):
        sent = capture("kernel.bus").splitlines()
        on_wire = [line.split(": ")[1] if line.startswith("#") else line for line in sent]
        over = packets(capture("two_adapters.bus").splitlines())
        for name, form, bus, wanted in (("kernel", "linux", None, packets(sent)), ("kernel", "sigrok", None, on_wire),
                                        ("two_adapters", "linux", 1, over)):
            with self.subTest(f"{name}.{form}"):
                self.assertEqual(packets(traced(form, capture(f"{name}.{form}"), 0x58, bus)), wanted)
        both = packets(traced("linux", capture("two_adapters.linux"), 0x58))
        self.assertEqual([line for line in over if both.count(line) < 2 * over.count(line)], [])


class Times(unittest.TestCase):
    """Packets with their times."""

    def test_each_format_has_its_times(self):
        lines = capture("bus.trace").splitlines()
        for form, words, name in READINGS:
            if "--times" not in words:
                continue
            wanted = "".join(f"{time} {packet}\n" for time, packet in zip(TIMES[form], lines))
            with self.subTest(form):
                self.assertEqual(called("capture", form, "--address=58", *words, text=capture(name)), (0, wanted, ""))

    def test_a_samplerate_has_its_unit_or_is_in_hertz(self):
        for rate in "4000000", "4000000Hz", "4000kHz", "4MHz":
            status, out, _ = called("capture", "sigrok", "-a", "0x58", "--times", f"--samplerate={rate}", text=capture("bus.samples"))
            self.assertEqual((status, [int(line.split()[0]) for line in out.splitlines()]),
                             (0, [time // 4 for time in TIMES["sigrok"]]), rate)

    def test_packets_of_two_adapters_begin_at_one_time(self):
        found = packets(traced("linux", capture("two_adapters.linux"), 0x58, None, clock_of("linux")))
        self.assertEqual(found[:2], ["0 B0 06 02 00 20 / B1 01 14 4E"] * 2)

    def test_texts_without_good_times_say_why(self):
        for form, text, why in UNTIMED:
            with self.subTest(text), self.assertRaises(NoCapture) as refused:
                traced(form, text, None, None, clock_of(form, 1))
            self.assertTrue(str(refused.exception).startswith(why), refused.exception)

    def test_a_clock_of_samples_needs_their_rate(self):
        with self.assertRaises(ValueError):
            clock_of("sigrok")

    @needs("pmb")
    def test_decode_takes_them(self):
        status, out, _ = called("capture", "sigrok", "-a", "58", "--times", "--samplerate=1MHz", text=capture("bus.samples"))
        told = decoded(out, "--times")
        self.assertEqual((status, told[0], told[-1]),
                         (0, "1 0 us 58 page 0 VOUT_COMMAND write 34CD", "lines 8 accepted 6 faults 2 bad 0"))


class Calls(unittest.TestCase):
    """Wrong command lines name the word that was wrong, in one line."""

    def test_wrong_command_lines(self):
        for words, said in WRONG:
            with self.subTest(words):
                self.assertEqual(called("capture", *words.split()), (2, "", f"pmhost: {said}\n"))

    def test_options_of_a_bus_stand_in_front_of_no_capture(self):
        for words, said in ("-a 58 capture linux", "give it after the kind, as capture linux --address=58"), \
                           ("-b 1 capture linux", "give it after the kind, as capture linux --bus=1"):
            option = said.rpartition(" ")[2].partition("=")[0]
            self.assertEqual(called(*words.split()), (
                2, "", f"pmhost: capture: {option} in front of it is an option of a bus: {said}\n"))
        for words, option in ("-b 1 capture sigrok", "--bus"), ("-a 58 capture waveform", "--address"):
            self.assertEqual(called(*words.split()), (
                2, "", f"pmhost: capture: {option} in front of it is an option of a bus, and it uses none\n"))


class Frames(unittest.TestCase):
    """Frames become commands of i2ctransfer, and come back, and the commands are run."""

    def test_frames_become_commands_and_come_back(self):
        frames = "".join(f"{frame}\n" for frame, _, _ in FRAMES)
        made = called("capture", "i2ctransfer", "7", text=frames)
        self.assertEqual(made, (0, "".join(f"i2ctransfer -y 7 {command}\n" for _, command, _ in FRAMES), ""))
        self.assertEqual(called("capture", "i2ctransfer", "--back", text=made[1]), (0, frames, ""))

    def test_faulty_frames_say_why(self):
        for text, why in FAULTY:
            with self.subTest(text):
                self.assertEqual(called("capture", "i2ctransfer", "7", text=f"{text}\n"),
                                 (1, "", f"pmhost: capture i2ctransfer: {why}\n"))

    def test_what_is_no_command_is_no_frame(self):
        for text in NO_COMMANDS:
            with self.subTest(text):
                self.assertEqual(called("capture", "i2ctransfer", "--back", text=text)[:2], (1, ""))

    def test_each_end_of_a_command(self):
        for words, frames, tool, *wanted in TRANSFERS:
            with self.subTest(f"{words} {tool}"), tempfile.TemporaryDirectory() as folder:
                put(folder, "i2ctransfer", f"#!/bin/sh\n{tool}\n")
                found = called("capture", "i2ctransfer", *words.split(), text=frames, PATH=f"{folder}:/usr/bin:/bin")
                self.assertEqual(found, tuple(wanted))

    def test_a_machine_without_i2ctransfer_is_told_what_to_install(self):
        with tempfile.TemporaryDirectory() as folder, unittest.mock.patch.dict(os.environ, PATH="/nowhere"), \
                unittest.mock.patch.object(i2ctransfer, "MORE_PLACES", ("/no", folder)):
            with self.assertRaisesRegex(i2ctransfer.Refused, f"no i2ctransfer in PATH, /no or {folder}: install i2c-tools"):
                [*i2ctransfer.run(b"B0 19 /\n", "7")]
            put(folder, "i2ctransfer", "#!/bin/sh\n/bin/echo 0x80 0xd3\n")
            self.assertEqual([*i2ctransfer.run(b"B0 19 /\n", "7")], [("B0 19 / B1 80 D3", True)])

    @needs("pmb")
    def test_commands_are_run_and_decode_takes_their_trace(self):
        with tempfile.TemporaryDirectory() as folder:
            put(folder, "i2ctransfer", STAND_IN)
            pipes = {name: os.path.join(folder, name) for name in ("SAID", "ANSWERED")}
            for each in pipes.values():
                os.mkfifo(each)
            # Both ends of each pipe stay open here, so that the part goes on from one command to the next.
            with open(pipes["SAID"], "r+b", 0) as said, open(pipes["ANSWERED"], "r+b", 0) as answered:
                threading.Thread(target=serve, args=(said, answered, len(FRAMES)), daemon=True).start()
                status, out, _ = pmhost("capture", "i2ctransfer", "7", "--run", text="".join(f"{frame}\n" for frame, _, _ in FRAMES),
                                        PATH=folder + os.pathsep + os.environ["PATH"], **pipes)
        failed = ": Error: Sending messages failed: No such device or address"
        wanted = [line or "# failed: " + frame.removesuffix(" /") + failed for frame, _, line in FRAMES]
        self.assertEqual((status, out.splitlines()), (1, wanted))
        self.assertEqual(decoded(out)[-1:], ["lines 7 accepted 7 faults 0 bad 0"])


def serve(said, answered, count):
    """A model part hears frames in lines of pairs of digits, of which a / behind them is a repeated start, and answers each."""
    part = ModelPart(0x58, [Output()] * 2)
    for _ in range(count):
        line = said.readline().decode()
        heard, _ = heard_by(part, bytes.fromhex(line.replace("/", "")), "/" in line)
        answered.write(f"{heard}\n".encode())


def put(folder, name, text):
    """A script that can be run."""
    path = os.path.join(folder, name)
    with open(path, "w", encoding="utf-8") as file:
        file.write(text)
    os.chmod(path, stat.S_IRWXU)
