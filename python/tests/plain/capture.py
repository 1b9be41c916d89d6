"""A capture told to a person: `pmb decode` with options. Without options it is trace.py's."""
import re

from . import trace
from .following import ALERT_RESPONSE, MUX, SPECIALS, Pages, ends_all, failure_of, is_clear_page, remark_of, shows_pages, touched
from .lines import MOST_BYTES, TextFault, decimal, is_skipped, lines_of
from .numbers import coefficients_fault
from .packets import VOUT_CODES, name_of
from .telling import ANSWER, NOBODY, Answers, aside_fields, aside_text, fields_of, is_closed, marks_fields, object_text, of_all, text_of
from .trace import judged, parts_of
from .values import READINGS, Formats, value_fields, words_of_value
from .words import Words

SWITCHES = ("--values", "--all", "--long", "--times", "--json", "--pages", "--explain")
VALUED, LISTS = ("--vout", "--readings", "--gap", "--part", "--mux"), ("--part", "--mux")
TIME = re.compile(rb" *([0-9]{1,18})(?= |$)")
MOST_FORMATS, MOST_GAP, GAP = 8, 1_000_000, 1000
BAD_VOUT = "bad vout: give linear11, ulinear16:N or direct:M:B:R, or a list, as 58:ulinear16:-12,linear11"
BAD_READINGS = "bad readings: give one to eight, as 8C:linear11,58:8D:direct:1:0:3"
BAD_GAP = "bad gap: give 0 to 1000000 milliseconds"
BAD_PART = "bad part: give addresses from 08 to 77 without 0C, as 61,28"
BAD_MUX = "bad mux: give addresses from 08 to 77 without 0C, as 70,71"
# The codes by whose answers a part is known.
OF_PARTS = (0x20, 0x78, 0x98)


class BadOptions(Exception):
    """What is wrong with the command line: a line, or None where the parser has a text of its own."""


def format_named(text, refusal):
    """The format that a text names; a slash stands for a colon."""
    name, *numbers = text.replace("/", ":").split(":")
    bounds = {"linear11": [], "ulinear16": [(-16, 15)], "direct": [(-2**15, 2**15 - 1)] * 2 + [(-2**7, 2**7 - 1)]}.get(name)
    if bounds is None or len(bounds) != len(numbers):
        raise BadOptions(refusal)
    try:
        form = name, *[decimal(number.encode(), *bound) for number, bound in zip(numbers, bounds)]
    except TextFault as fault:
        raise BadOptions(refusal) from fault
    if name == "direct" and coefficients_fault(form[1], form[3]):
        raise BadOptions(refusal)
    return form


def vout_named(text):
    """The entries of `--vout`: an address or None, no code, and a format each."""
    entries = []
    for entry in text.split(","):
        words, address = entry.replace("/", ":").split(":"), None
        if len(words) > 1 and re.fullmatch("[0-9A-Fa-f]{2}", words[0]):
            address = int(words.pop(0), 16)
        form = format_named(":".join(words), BAD_VOUT)
        if address is not None and not 0x08 <= address <= 0x77:
            raise BadOptions(BAD_VOUT)
        entries.append((address, None, form))
    if len(entries) > MOST_FORMATS:
        raise BadOptions(BAD_VOUT)
    return entries


def readings_named(text):
    """The entries of `--readings`: an address or None, a code or None, and a format each."""
    entries = []
    for entry in text.split(","):
        words, places = entry.replace("/", ":").split(":"), []
        while len(places) < 2 and re.fullmatch("[0-9A-Fa-f]{2}", words[0]):
            places.append(int(words.pop(0), 16))
            words = words or [""]
        address, code = [None, None, *places][-2:]
        form = format_named(":".join(words), BAD_READINGS)
        if form[0] == "ulinear16" or code not in (None, *READINGS) or address is not None and not 0x08 <= address <= 0x77:
            raise BadOptions(BAD_READINGS)
        entries.append((address, code, form))
    if len(entries) > MOST_FORMATS:
        raise BadOptions(BAD_READINGS)
    return entries


def gap_named(text):
    """The milliseconds of `--gap`."""
    if not re.fullmatch("[0-9]{1,7}", text) or int(text) > MOST_GAP:
        raise BadOptions(BAD_GAP)
    return int(text)


def addresses_named(texts, refusal):
    """The addresses of `--part` or `--mux`."""
    words = [word for text in texts for word in text.split(",")]
    if not all(re.fullmatch("[0-9A-Fa-f]{2}", word) and 0x08 <= int(word, 16) <= 0x77 and int(word, 16) != 0x0C for word in words):
        raise BadOptions(refusal)
    return {int(word, 16) for word in words}


# The options that need others, in the order of their refusals, and what reads what stands behind them.
NEEDS = [("--vout", ("--values",), vout_named), ("--readings", ("--values",), readings_named),
         ("--gap", ("--pages", "--times"), gap_named), ("--part", (), lambda texts: addresses_named(texts, BAD_PART)),
         ("--mux", (), lambda texts: addresses_named(texts, BAD_MUX))]


def options_of(words):
    """The options that the words name: those that are given, and what is given with them, which may be a word of its own."""
    options, left = {}, [*words]
    while left:
        name, equals, value = left.pop(0).partition("=")
        if name in VALUED and not equals and left and not left[0].startswith("-"):
            equals, value = "=", left.pop(0)
        if name in options and name not in LISTS or name not in (*SWITCHES, *VALUED) or bool(equals) != (name in VALUED):
            raise BadOptions(None)
        options[name] = [*options.get(name, []), value] if name in LISTS else value
    if "--explain" in options:
        options.update({"--all": "", "--pages": ""})
    for name, needed, read in NEEDS:
        if name in options:
            if not {*needed} <= {*options}:
                raise BadOptions(f"give {name} with {' and '.join(needed)}")
            options[name] = read(options[name])
    return options


class Telling:
    """What was told so far, and what the trace taught."""

    def __init__(self, options):
        self.options, self.has_notes = options, bool({*options} - {"--long"})
        self.parts = {*options.get("--part", ())}  # and what answered as a part does
        self.formats = Formats(options.get("--vout", []), options.get("--readings", []))
        self.answers = Answers()
        self.pages = Pages(1000 * options.get("--gap", GAP)) if "--pages" in options else None
        self.said, self.counts, self.codes = [], {}, {}
        self.failed = 0  # lines of transfers that failed
        self.faults = self.bad = self.others = self.refusals = self.asides = self.others_faulty = 0  # the last: faults that a PEC wouldn't mend
        self.refused = None  # the byte of the next packet that wasn't acknowledged, and whether it is the answer's
        self.words = Words() if "--explain" in options else None
        self.first = self.timed = None  # the time of the first packet, and the first line that begins with its time
        self.beyond = self.paging = None  # the first line that orders a voltage beyond 1000 V by --vout, and that writes PAGE

    def line(self, number, line):
        if is_skipped(line):
            if line.startswith(b"#") and self.has_notes:
                self.comment(number, *(remark_of(line) or (None, None)))
                self.failure(number, failure_of(line))
            return
        time = None
        if "--times" in self.options:
            found = TIME.match(line)
            if not found:
                self.bad_line(number, "X1 Syntax")
                return
            time, line = int(found[1]), line[found.end():]
        parts = parts_of(line)
        if isinstance(parts, str):
            self.bad_line(number, parts)
        else:
            self.packet(number, time, *parts)

    def failure(self, number, failed):
        """A comment says that a transfer failed: its time, or None, and why."""
        if failed is None:
            return
        time, why = failed
        self.first = time if self.first is None else self.first
        if not self.words:
            return
        time = time - self.first if time is not None and "--times" in self.options else None
        where = f"{number}" if time is None else f"{number} {time} us"
        is_json = "--json" in self.options
        self.failed += 1
        self.said.append(object_text({"line": number, "time": time, "failed": why}) if is_json else f"{where} failed: {why}")

    def comment(self, number, kind, what):
        if kind == "refused":
            self.refused = self.refused or what
        elif kind == "lost":
            self.lose(number)
        elif kind == "shown":
            frame, is_read, is_failed = what
            if ends_all(frame, is_read, self.special(frame[0] >> 1, False)):
                self.lose(number)
                return
            is_lost = self.answers.is_lost(frame, is_failed and is_read)
            kind, page = touched(frame, is_read)
            self.formats.forget(frame[0] >> 1, kind, page, False, is_lost)
            if shows_pages(frame, False):
                self.formats.has_pages(frame[0] >> 1)
            if self.pages:
                self.pages.place(frame[0] >> 1).touch(number, kind, is_lost)
            if self.words:
                self.words.end(number, frame, None, False, is_lost)
                self.words.hear(number, frame, None, False)

    def lose(self, number):
        """Something was lost, nobody knows of which address."""
        self.formats.lose(None)
        if self.pages:
            self.pages.lose()
        if self.words:
            self.words.lose(number)

    def special(self, address, answers):
        """What an address is, if it is no part's; `answers` is whether it answers as a part does."""
        if address in self.options.get("--mux", ()):
            return MUX
        special = SPECIALS.get(address)
        return None if special != ALERT_RESPONSE and (answers or address in self.parts) else special

    def is_aside(self, number, time, packet, parts):
        """Tells a packet whose address is no part's, where it is one."""
        frame, read = parts
        if not self.has_notes or not frame or frame[0] & 1:
            return False
        answers = packet["is_received"] and packet["kind"] == "read" and packet["code"] in OF_PARTS
        special = self.special(frame[0] >> 1, answers)
        if not special:
            self.parts |= {frame[0] >> 1} if answers else set()
            return False
        time = None if time is None else time - self.first
        if packet["refused"]:
            self.refusals += 1
        else:
            self.asides += 1
        if "--json" in self.options:
            told = {**aside_fields(frame, read, special), **marks_fields(packet, frame)}
            self.said.append(object_text({"line": number, "time": time, **told}))
        else:
            self.said.append(f"{number}{'' if time is None else f' {time} us'} {aside_text(packet, frame, read, special)}")
        if ends_all(frame, read is not None, special):
            self.lose(number)
        elif self.words:
            self.words.aside(number, frame)
        return True

    def packet(self, number, time, frame, read):
        packet, wrong, taken = judged(frame, read), None, ANSWER
        self.first = time if self.first is None else self.first
        if self.timed is None and "--times" not in self.options and is_timed(frame, read):
            self.timed = number
        if "--all" in self.options:
            taken = ANSWER if self.refused or packet["kind"] != "fault" else self.answers.taken(frame, read)
            packet = of_all(packet, frame, read, taken)
        is_empty = read is not None and len(read) < 2
        packet = {**packet, "refused": self.refused, "is_forbidden": False, "phase": None,
                  "is_received": taken == ANSWER and not self.refused and not is_empty,
                  "is_lost": self.answers.is_lost(frame, taken == NOBODY or is_empty)}
        self.refused = None
        if self.is_aside(number, time, packet, (frame, read)):
            return
        if self.pages:
            self.pages.come(packet, time)
            wrong = self.pages.contradiction(number, packet)
            packet = {**self.pages.followed(packet), "is_forbidden": self.pages.forbids(packet), "phase": self.pages.phase(packet)}
        self.count(packet, (frame, read))
        word = self.words.read(packet, wrong) if self.words else None
        packet["changed"] = word and self.words.changed(word)
        self.say(number, time, packet, (frame, read), wrong)
        if self.beyond is None and self.is_beyond(packet):
            self.beyond = number
        if self.paging is None and packet["kind"] == "write" and packet["code"] == 0x00 and not self.pages and "--values" in self.options:
            self.paging = number
        self.teach(number, packet, (frame, read), wrong, word)
        if {"--all", "--pages"} & {*self.options}:
            self.answers.hear(packet, frame, read, bool(self.pages))
        if self.has_notes and ends_all(frame, read is not None, None):
            self.lose(number)

    def teach(self, number, packet, parts, wrong, word):
        """What a packet teaches of formats, pages and words."""
        frame, read = parts
        is_clear = not packet["refused"] and (packet["kind"] != "fault" or len(frame) > 1 and is_closed(frame, read))
        kind, page = touched(frame, read is not None)
        sure = self.pages.sure_page(packet) if self.pages else None
        is_restart = bool(self.pages) and (packet["is_lost"] and kind is None or wrong is not None and is_clear_page(packet))
        self.formats.forget(packet["address"], kind, sure if page is None else page, is_clear, is_restart)
        if packet["address"] is not None and shows_pages(frame, read is not None and packet["is_received"]):
            self.formats.has_pages(packet["address"])
        if packet["is_received"] and not wrong:
            self.formats.learn(packet)
        if self.words:
            self.words.end(number, frame, sure, is_clear, is_restart)
            self.words.hear(number, frame, word, read is not None and packet["is_received"])
        if self.pages:
            self.pages.learn(number, packet, frame, read)

    def say(self, number, time, packet, parts, wrong):
        value, has_values, changed = self.value(packet), "--values" in self.options, packet["changed"] and [packet["changed"], number]
        time = None if time is None else time - self.first
        if "--json" in self.options:
            told = fields_of(packet, *parts, has_values, value)
            self.said.append(object_text({"line": number, "time": time, **told, **marks_fields(packet, parts[0]), "wrong": wrong, "changed": changed}))
            return
        where = f"{number}" if time is None else f"{number} {time} us"
        mark = f" WRONG PAGE? lines {wrong[0]} and {wrong[1]}" if wrong else f" CHANGED? lines {changed[0]} and {changed[1]}" if changed else ""
        self.said.append(f"{where} {text_of(packet, *parts, has_values, words_of_value(value))}{mark}")

    def bad_line(self, number, words):
        self.bad += 1
        self.refused = None
        self.lose(number)
        self.said.append(object_text({"line": number, "fault": words}) if "--json" in self.options else f"{number} {words}")

    def count(self, packet, parts):
        if packet["kind"] == "fault":
            self.others_faulty += of_all(packet, *parts, ANSWER)["kind"] in ("fault", "other")
        if packet["refused"]:
            self.refusals += 1
        elif packet["kind"] == "fault":
            self.faults += 1
        elif packet["kind"] == "other":
            self.others += 1
            self.codes[packet["code"]] = self.codes.get(packet["code"], 0) + 1
        else:
            self.counts[packet["code"]] = self.counts.get(packet["code"], 0) + 1

    def value(self, packet):
        if "--values" not in self.options or packet["kind"] not in ("read", "write", "other"):
            return {}
        if packet["refused"] or packet.get("taken") == NOBODY:
            return {}
        if packet["kind"] == "other":
            return value_fields(packet, None)
        is_assumed = self.formats.is_assumed(packet["address"], packet["code"])
        return {**value_fields(packet, self.formats.of(packet)), **({"assumed": True} if is_assumed else {})}

    def is_beyond(self, packet):
        """Whether a packet orders a voltage beyond 1000 V, and only --vout gives it one."""
        return (packet["kind"] == "write" and packet["code"] in VOUT_CODES and not self.formats.of_the_trace(packet)
                and abs(self.value({**packet, "refused": None}).get("volts", 0)) > 1000 * 10**6)

    def hint(self):
        """What may be wrong, or None."""
        if self.beyond is not None:
            return f"line {self.beyond} orders a voltage beyond 1000 V by --vout: a minus may be missing"
        if self.timed is not None:
            return f"line {self.timed} begins with its time: give --times"
        paging = f"line {self.paging} writes PAGE: --pages shows which output each packet reaches" if self.paging is not None else None
        if self.counts or self.codes:
            return paging
        if self.bad and "--times" not in self.options:
            return "no line is a good packet: where lines begin with times, give --times"
        if self.bad and not self.faults:
            return "no line is a time and a packet: give --times to both ends, or to none"
        if "--all" not in self.options and self.faults and not self.others_faulty:
            return "no line is a good packet: where packets have no PEC, give --all"
        return paging

    def ends(self):
        """The lines of the counts."""
        has_all, accepted, lines = "--all" in self.options, sum(self.counts.values()), len(self.said) - self.failed
        other = {"other": self.others} if has_all else {}
        last = {"lines": lines, "accepted": accepted, **other, "faults": self.faults,
                **({"refused": self.refusals} if self.refusals else {}), **({"special": self.asides} if self.asides else {}), "bad": self.bad}
        codes = sorted(self.codes.items())
        if "--json" in self.options:
            counts = [{"count": name_of(code), "lines": count} for code, count in self.counts.items()]
            counts += [{"code": f"{code:02X}", "lines": count} for code, count in codes]
            self.said += map(object_text, [*counts, last])
        else:
            self.said += [f"count {name_of(code)} {count}" for code, count in self.counts.items()]
            self.said += [f"count code {code:02X} {count}" for code, count in codes]
            self.said.append(" ".join(f"{name} {count}" for name, count in last.items()))


def is_timed(frame, read):
    """Whether a packet with a fault would be good without 16 decimal digits before it."""
    digits = "".join(f"{byte:02X}" for byte in frame[:8])
    return (len(frame) > 8 and digits.isdecimal() and judged(frame, read)["kind"] == "fault"
            and judged(frame[8:], read)["kind"] != "fault")


def decode(text, words):
    """Status, standard output and standard error of `pmb decode` on a text, with these options; standard error is None
    where it is the parser's own."""
    try:
        options = options_of(words)
    except BadOptions as fault:
        return 2, "", f"pmb: {fault}\n" if fault.args[0] else None
    if not options:
        return trace.decode(text)
    is_whole = "--long" in options or len(text) <= MOST_BYTES
    if not is_whole:
        text = text[:MOST_BYTES]
        text = text[:text.rfind(b"\n") + 1]
    told = Telling(options)
    for number, line in enumerate(lines_of(text), 1):
        told.line(number, line)
    if is_whole:
        told.ends()
    said = "".join(line + "\n" for line in told.said)
    if not is_whole:
        return 1, said, "pmb: X3 TooLong\npmb: --long reads on\n"
    hint = told.hint()
    return int(told.bad > 0), said, f"pmb: {hint}\n" if hint else ""
