"""`pmhost faults`: what is told of each fault, of both hosts, what is refused; and figures over random faults, which come out the same
again and count no word of the proved host at a wrong output."""
import os
import random
import re
import signal
import subprocess
import tempfile
import unittest
import unittest.mock

from pmhost import faults, ModelPart

from . import running
from .data.strike_rows import (APPLIED, ASKED, BEFORE, BEHIND, BELIEVED, BOARD, CONFIRMED, DOUBTS, JOBS, ORDER, PROVED, RAILED, RAILS,
                               REFUSED, WITH_FILES, WRITTEN)
from .running import called, pmhost

FIGURES = re.compile(r"(.+): (\d+) orders, (\d+) words reached the wrong output; success was reported (\d+) times, (\d+) times wrongly")


def told(lines, end, words):
    """What an order tells."""
    held = "; ".join(f"output {output} holds {word}" for output, word in enumerate(words))
    return "\n".join([" ".join(ORDER), *(f"  {line}" for line in lines), end, held]) + "\n"


class Faults(unittest.TestCase):
    def order(self, options, lines, end, words):
        with self.subTest(options):
            status = int(end != CONFIRMED and not end.endswith(" 34CD acknowledged"))
            self.assertEqual(called("faults", *options, *ORDER), (status, told(lines, end, words), ""))

    def test_the_proved_host_goes_on_until_a_word_is_read_back(self):
        for strikes, (*lines, end, held) in PROVED:
            self.order([f"--strike={'ok ' * len(BEFORE)}{strikes}"], [*BEFORE, *lines, *BEHIND], end, ["1000", held])

    def test_the_plain_host_believes_an_acknowledgement(self):
        for strikes, (*lines, end, first, second) in BELIEVED:
            self.order([f"--strike={strikes}", "--plain-host"], lines, end, [first, second])

    def test_passes_are_those_of_the_call(self):
        *lines, end, held = PROVED[-1][1]
        self.order(["--passes=1", f"--strike={'ok ' * len(BEFORE)}lost mute"], [*BEFORE, *lines[:2], *lines[6:], *BEHIND], end, ["1000", held])
        lines = [line for line in BELIEVED[-2][1][:1]]
        self.order(["--passes=1", "--strike=lost", "--plain-host"], lines, DOUBTS, ["1000", "1000"])

    def test_jobs_are_told_with_their_answers(self):
        for words, status, out, errors in JOBS:
            with self.subTest(words):
                self.assertEqual(called("faults", *words.split()), (status, out, errors))

    def test_a_job_that_ends_badly_ends_no_other(self):
        status, out, _ = called("faults", "set", "1", "5V", "+", *ORDER)
        self.assertEqual((status, out.splitlines()[-2:]), (1, [CONFIRMED, "output 0 holds 1000; output 1 holds 34CD"]))

    def test_a_file_of_rails_gives_outputs_and_limits(self):
        with tempfile.TemporaryDirectory() as folder:
            path, board = (os.path.join(folder, name) for name in ("rails.toml", "board.toml"))
            for name, text in (path, RAILS), (board, BOARD):
                with open(name, "w", encoding="ascii") as file:
                    file.write(text)
            for job, wanted, lines in RAILED:
                with self.subTest(job):
                    status, out, _ = called("faults", f"--rails={path}", *job)
                    self.assertEqual((status, out.splitlines()[-2:]), (wanted, lines))
            status, out, _ = called("faults", "apply", path)
            self.assertEqual((status, out.splitlines()[-2:]), (0, APPLIED))
            for words, said in WITH_FILES:
                with self.subTest(words):
                    found = called("faults", *(word.replace("RAILS", path).replace("BOARD", board) for word in words))
                    self.assertEqual(found, (2, "", f"pmhost: {said}\n"))

    def test_a_seed_draws_the_same_faults_again(self):
        found = pmhost("faults", "--seed=3", "--rate=60", *ORDER)
        self.assertEqual(pmhost("faults", "--seed=3", "--rate=60", *ORDER), found)
        self.assertNotEqual(called("faults", "--seed=3", "--rate=0", *ORDER)[1], found[1])
        self.assertEqual(called("faults", "--seed=3", "--rate=0", *ORDER), called("faults", *ORDER))

    def test_the_figures_count_no_word_of_the_proved_host_at_a_wrong_output(self):
        found = pmhost("faults", "--runs=40", "--seed=1")
        self.assertEqual(pmhost("faults", "--runs=40", "--seed=1"), found)
        rows = [FIGURES.fullmatch(line).groups() for line in found[1].splitlines()]
        self.assertEqual((found[0], found[2], [row[0] for row in rows]), (0, "", ["pmhost", "plain host"]))
        proved, plain = rows
        self.assertEqual((proved[1], proved[2], proved[4]), ("80", "0", "0"))
        self.assertGreater(int(proved[3]), 60)
        self.assertEqual(plain[1], "80")
        self.assertGreater(int(plain[4]), 0)

    def test_the_stored_figures_are_those_of_the_first_thousand_runs_alone(self):
        """The first tenth of the runs that are stored: no word of the proved host is at a wrong output there either."""
        stored = running.stored(running.ROOT, "trials", "results", "faults.txt").splitlines()
        rows = [FIGURES.fullmatch(line).groups() for line in stored]
        self.assertEqual([(row[0], row[1]) for row in rows], [("pmhost", "20000"), ("plain host", "20000")])
        found = [FIGURES.fullmatch(line).groups() for line in called("faults", "--runs=1000", "--seed=1")[1].splitlines()]
        self.assertEqual([row[2] for row in (rows[0], found[0])], ["0", "0"])

    def test_a_word_at_a_wrong_output_is_counted(self):
        class Wrong:
            """A host whose word reaches the other output."""
            name = "wrong"

            def restart(self):
                pass

            def order(self, output, register, word):
                bench.part.hear(bytes.fromhex("B0 05 04 00 21 CD 34 5A"))
                return True
        bench = faults.Bench(2, 3, lambda transfer: None)
        figures = faults.Figures()
        figures.order(bench, Wrong(), 1, 0x34CD)
        self.assertEqual(figures.line("wrong"), "wrong: 1 orders, 1 words reached the wrong output; success was reported 1 times, "
                                                "1 times wrongly")


class Hosts(unittest.TestCase):
    """The two hosts that are compared: what each sends, and of what it says that the register has the word."""

    def over(self, *strikes, passes=2):
        """Both over a bus of their own, with what befalls its transfers, and the lines of these."""
        seen = []
        bench = faults.Bench(2, passes, lambda transfer: seen.append(transfer.line))
        bench.bus.faults = list(strikes)
        return bench, seen

    def test_the_proved_host_reports_what_is_read_back(self):
        for strikes, is_reported, transfers in (((), True, 2), (("lost", "ok", "ok", "ok"), True, 4), (("ok", "mute") * 2, False, 4),
                                                (("lost", "ok") * 2, False, 4)):
            bench, seen = self.over(*strikes)
            self.assertEqual((bench.proved.order(1, "VOUT_COMMAND", 0x34CD), len(seen)), (is_reported, transfers), strikes)
        self.assertEqual(bench.words(), [0x1000, 0x1000])

    def test_what_the_proved_host_refuses_is_not_reported(self):
        """An order while another one is open."""
        bench, seen = self.over()
        bench.proved.host.order(0, "VOUT_COMMAND", 0x2345)
        self.assertEqual((bench.proved.order(1, "VOUT_COMMAND", 0x34CD), seen), (False, []))

    def test_a_restart_of_the_proved_host_forgets_all(self):
        bench, _ = self.over()
        self.assertTrue(bench.proved.order(1, "VOUT_COMMAND", 0x34CD))
        bench.proved.restart()
        self.assertEqual(bench.proved.host.confirmed_word(1, "VOUT_COMMAND"), None)

    def test_the_plain_host_selects_first_and_takes_an_acknowledgement_for_success(self):
        for strikes, is_reported, words in (((), True, [0x1000, 0x34CD]), (("lost",), True, [0x1000, 0x34CD]), (("lost", "lost"), False, [0x1000] * 2),
                                            (("ok", "lost", "lost"), False, [0x1000] * 2), (("false",), True, [0x34CD, 0x1000])):
            bench, seen = self.over(*strikes)
            self.assertEqual((bench.plain.order(1, "VOUT_COMMAND", 0x34CD), bench.words()), (is_reported, words), strikes)
            self.assertTrue(seen[0].startswith("B0 00 01 ED  "), seen)
        bench, seen = self.over()
        bench.plain.restart()
        for register, frame in (("OPERATION", "B0 01 40 38"), ("VOUT_MAX", "B0 24 40 00 2B"), ("WRITE_PROTECT", "B0 10 40 7A")):
            self.assertTrue(bench.plain.order(0, register, 0x40))
            self.assertEqual(seen[-2:], ["B0 00 00 EA  ok: part taken, acknowledged", f"{frame}  ok: part taken, acknowledged"])


class Signals(unittest.TestCase):
    def test_an_interrupt_ends_it_in_one_line(self):
        with subprocess.Popen(running.command("faults", "part", "restart", "+", "store", "+", *ORDER, "--passes=15",
                                              *["+", *ORDER] * 400), stdout=subprocess.PIPE, stderr=subprocess.PIPE,
                              text=True, env=running.around(PYTHONUNBUFFERED="1"), preexec_fn=running.with_signals) as ran:
            self.assertEqual(ran.stdout.readline(), "part restart\n")
            ran.send_signal(signal.SIGINT)
            _, errors = ran.communicate(timeout=60)
        self.assertEqual((ran.returncode, errors), (130, "pmhost: faults: interrupted\n"))


class Calls(unittest.TestCase):
    def test_wrong_command_lines(self):
        for words, said in REFUSED:
            with self.subTest(words):
                self.assertEqual(called("faults", *words), (2, "", f"pmhost: {said}\n"))

    def test_options_of_a_bus_stand_in_front_of_no_faults(self):
        self.assertEqual(called("--passes=2", "faults", "known"), (
            2, "", "pmhost: faults: --passes in front of it is an option of a bus, and it uses none\n"))

    def test_the_help_has_each_fault(self):
        status, out, _ = called("faults", "--help")
        self.assertEqual((status, [it for it in (*faults.bus.DRAWN, "false", "restart", "ok") if it not in out]), (0, []))


class Recorder:
    """A part that keeps what it hears."""
    address = 0x58

    def __init__(self, answer=b""):
        self.answer, self.heard = answer, []

    def hear(self, frame, is_request=False):
        self.heard.append(frame.hex(" ").upper() + " /" * is_request)
        return self.answer

    def restart(self):
        self.heard.append("restart")


def bus_over(part, strikes, tell=lambda transfer: None):
    """A bus with faults over a part that keeps what it hears."""
    bus = faults.FaultyBus(ModelPart(0x58), strikes, tell)
    bus.part = part
    return bus


class Arrivals(unittest.TestCase):
    """What a part hears of a frame under each fault, and what the host is told."""

    def test_what_arrives_of_a_write(self):
        for fault, heard, is_acknowledged in WRITTEN:
            part, lines = Recorder(), []
            bus = bus_over(part, [fault], lines.append)
            self.assertEqual((bus.write(bytes.fromhex("B0 03 46")), part.heard), (is_acknowledged, heard), fault)
            self.assertEqual(bus.write(b"\xB0\x03\x46"), True, "no fault strikes the next one")
            self.assertEqual(len(lines), 2)

    def test_what_arrives_of_a_request_and_what_comes_back(self):
        for fault, heard, back in ASKED:
            part, lines = Recorder(bytes.fromhex("B1 14 ED")), []
            bus = bus_over(part, [fault], lines.append)
            self.assertEqual((bus.read(bytes.fromhex("B0 20"), 3), part.heard), (bytes.fromhex(back)[1:], heard), fault)
            self.assertTrue(lines[0].line.endswith(f", back {back or 'nothing'}"), lines[0].line)

    def test_an_answer_from_another_address_is_none(self):
        bus = bus_over(Recorder(bytes.fromhex("B1 14 ED")), ["garbled:0:3"])
        self.assertEqual(bus.read(bytes.fromhex("B0 20"), 3), b"")

    def test_both_hosts_meet_the_same_lists(self):
        met = {}

        class Host:
            def __init__(self, name):
                self.name = name

            def restart(self):
                pass

            def order(self, *job):
                met.setdefault(self.name, []).append((job, tuple(both.bus.faults)))
                both.bus.faults.clear()
                return False
        both = unittest.mock.Mock(outputs=range(2), proved=Host("one"), plain=Host("other"))
        both.words.return_value = [0x1000, 0x1000]
        self.assertEqual([*faults.figures(both, 5, 1, 50)][0], "one: 10 orders, 0 words reached the wrong output; success was reported "
                                                           "0 times, 0 times wrongly")
        self.assertEqual(met["one"], met["other"])
        self.assertEqual(len({strikes for _, strikes in met["one"]}), 6)


class Draws(unittest.TestCase):
    """What is drawn at random is what any bus does to any part."""

    def test_faults_that_are_drawn(self):
        found = faults.draw_faults(random.Random(1), 100, 2000)
        self.assertEqual({it.partition(":")[0] for it in found}, {*faults.bus.DRAWN})
        self.assertEqual(faults.read_faults(" ".join(found)), found)
        self.assertEqual({*faults.draw_faults(random.Random(1), 0, 2000)}, {"ok"})
        share = sum(it != "ok" for it in faults.draw_faults(random.Random(1), 25, 4000))
        self.assertTrue(900 < share < 1100, share)
