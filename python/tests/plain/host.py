"""The host core. It keeps the transcript of its jobs and of what it was told, and answers every question
by looking back over it.

Entries of the transcript: a job ("order", cell, word), ("check", cell), ("learn", output),
("clear", output), ("store",) or ("restore",); ("finished", acked); ("got", bytes); ("restart",).
Marks, in time: ("put", cell, word), ("good", cell, word, surprising), ("restored", None), ("restart", None).
"""
from .converter import OPERATION, PROTECT, accepts, format_of, mode_fault
from .numbers import coefficients_fault, nearest, signed
from .packets import answer_fault, answer_payload, length_of, write_part

ANY = None
MOST_WORDS = 16
JOBS = ("order", "check", "learn", "clear", "store", "restore")


def write_of(cell, word):
    return "write", cell[0], cell[1], [*word.to_bytes(length_of(cell[1]), "little")]


def read_of(cell):
    return "read", cell[0], cell[1]


def is_forgotten(cell, mark):
    """The mark takes away what was known of the cell: a restart of the host's, and for an output's cell a
    restore."""
    return mark[0] == "restart" or mark[0] == "restored" and cell != PROTECT


class Host:
    def __init__(self, address, outputs, passes):
        self.address, self.outputs, self.passes = address, outputs, passes
        self.transcript, self.marks = [], []

    # What is being sent, and how jobs end.

    def last_job(self, before=None):
        """The last job that no restart follows, and the entries after it."""
        entries = self.transcript[:before]
        for place in range(len(entries) - 1, -1, -1):
            if entries[place][0] == "restart":
                return None, []
            if entries[place][0] in JOBS:
                return entries[place], entries[place + 1:]
        return None, []

    def good(self, message, entry):
        """The payload of a good answer, otherwise None."""
        if entry[0] != "got" or answer_fault(self.address, message, entry[1]):
            return None
        return answer_payload(message, entry[1])

    def progress(self, before=None):
        """("none",), ("sending", message) or ("ended", end): what the last job is at."""
        job, told = self.last_job(before)
        if job is None:
            return ("none",)
        return getattr(self, "progress_of_" + job[0])(job, told)

    def progress_of_order(self, job, told):
        _, cell, word = job
        if told and len(told) % 2 == 0:
            payload = self.good(read_of(cell), told[-1])
            answer = None if payload is None else int.from_bytes(bytes(payload), "little")
            if answer == word:
                return "ended", "done"
            if len(told) == 2 * self.passes:
                return "ended", "unknown" if answer is None else f"differs {answer:04X}"
        return "sending", write_of(cell, word) if len(told) % 2 == 0 else read_of(cell)

    def progress_of_check(self, job, told):
        message = read_of(job[1])
        if told and self.good(message, told[-1]) is not None:
            return "ended", "done"
        return ("ended", "unknown") if len(told) == self.passes else ("sending", message)

    def progress_of_sent(self, message, told):
        """Of a write that is sent until it is acknowledged."""
        if told and told[-1] == ("finished", True):
            return "ended", "done"
        return ("ended", "unknown") if len(told) == self.passes else ("sending", message)

    def progress_of_clear(self, job, told):
        return self.progress_of_sent(("write", job[1], 0x03, []), told)

    def progress_of_store(self, _, told):
        return self.progress_of_sent(("write", None, 0x15, []), told)

    def progress_of_restore(self, _, told):
        return self.progress_of_sent(("write", None, 0x16, []), told)

    def progress_of_learn(self, job, told):
        form, end = self.learned_format(job, told)
        if end:
            return "ended", end
        return "sending", form

    def learned_format(self, job, told):
        """What is read next and None, or the format and the end of the job."""
        message = ("read", job[1], 0x20)
        mode, told = self.first_good(message, told)
        if mode is None:
            return (message, None) if told is not None else (None, "unknown")
        if mode_fault(mode[0]):
            return None, "unknown"
        if mode[0] != 0x40:
            return format_of(mode[0], None), "learned"
        message = ("coefficients", 0x21, 0x00)
        found, told = self.first_good(message, told)
        if found is None:
            return (message, None) if told is not None else (None, "unknown")
        m, b = (signed(found[at] + 256 * found[at + 1], 16) for at in (0, 2))
        r = signed(found[4], 8)
        if coefficients_fault(m, r):
            return None, "unknown"
        return ("direct", m, b, r), "learned"

    def first_good(self, message, told):
        """The payload of the first good answer and the entries after it. Without one, the payload is
        None, and so are the entries where no try is left."""
        for place, entry in enumerate(told[:self.passes]):
            payload = self.good(message, entry)
            if payload is not None:
                return payload, told[place + 1:]
        return None, None if len(told) >= self.passes else []

    def sending(self):
        """The message that is being sent, or None."""
        progress = self.progress()
        return progress[1] if progress[0] == "sending" else None

    def sending_frame(self):
        return write_part(self.address, self.sending())

    def sending_reads(self):
        return self.sending() is not None and self.sending()[0] != "write"

    def job(self):
        """The word of a report."""
        progress = self.progress()
        return {"none": "none", "sending": "pending", "ended": progress[-1]}[progress[0]]

    # What is known.

    def format(self, output):
        """The format of the last learn of the output that ended learned, since the last restart."""
        for end in range(len(self.transcript), 0, -1):
            if self.transcript[end - 1] == ("restart",):
                return None
            job, told = self.last_job(end)
            if job == ("learn", output):
                form, said = self.learned_format(job, told)
                if said == "learned":
                    return form
        return None

    def possible(self, cell):
        """The words that the cell may hold, in order, or ANY."""
        words = []
        for mark in reversed(self.marks):
            if is_forgotten(cell, mark) or mark[0] == "good" and mark[3] and mark[1] != cell:
                return ANY
            if mark[1] == cell:
                words.append(mark[2])
                if mark[0] == "good":
                    return list(dict.fromkeys(reversed(words)))
        return ANY

    def standing(self, cell):
        """The confirmed word, or None."""
        for mark in reversed(self.marks):
            if is_forgotten(cell, mark) or mark[1] == cell:
                return mark[2] if mark[0] == "good" else None
        return None

    def restart_seen(self):
        for mark in reversed(self.marks):
            if mark[0] == "restart":
                return False
            if mark[0] == "good" and mark[3]:
                return True
        return False

    # The calls.

    def refusal(self, output):
        if self.sending() is not None:
            return "H3 Busy"
        if output is not None and output >= self.outputs:
            return "H4 UnknownOutput"
        return None

    def add(self, entry):
        """An entry, and the marks that it makes."""
        before = self.sending()
        self.transcript.append(entry)
        if entry[0] == "restart":
            self.marks.append(("restart", None))
        job, _ = self.last_job()
        is_about_cell = job and job[0] in ("order", "check")
        if entry[0] == "got" and is_about_cell:
            payload = self.good(before, entry)
            if payload is not None:
                word, possible = int.from_bytes(bytes(payload), "little"), self.possible(job[1])
                surprising = possible is not ANY and word not in possible
                self.marks.append(("good", job[1], word, surprising))
        # A write begins to be sent: at its acceptance, or in a later pass.
        if job and job[0] == "order" and entry[0] != "finished" and self.sending() == write_of(*job[1:]):
            self.marks.append(("put", *job[1:]))
        # A restore begins to be sent: at its acceptance, and at each later attempt.
        if job == ("restore",) and self.sending() is not None:
            self.marks.append(("restored", None))

    def order(self, cell, word):
        fault = self.refusal(cell[0])
        if not fault and not accepts(cell, word):
            fault = "H5 BadWord"
        return fault or self.take_order(cell, word)

    def take_order(self, cell, word):
        possible = self.possible(cell)
        if possible is not ANY and len(possible) == MOST_WORDS and word not in possible:
            return "H6 TooUncertain"
        return self.add(("order", cell, word))

    def order_micro(self, cell, micro):
        fault = self.refusal(cell[0])
        if not fault and (cell == PROTECT or cell[1] == OPERATION):
            fault = "H5 BadWord"
        if not fault and self.format(cell[0]) is None:
            fault = "H7 FormatUnknown"
        if fault:
            return fault
        word, fault = nearest(self.format(cell[0]), micro)
        return fault or self.take_order(cell, word)

    def check(self, cell):
        return self.refusal(cell[0]) or self.add(("check", cell))

    def learn(self, output):
        return self.refusal(output) or self.add(("learn", output))

    def clear(self, output):
        return self.refusal(output) or self.add(("clear", output))

    def store(self):
        return self.refusal(None) or self.add(("store",))

    def restore(self):
        return self.refusal(None) or self.add(("restore",))

    def told(self, entry):
        assert self.sending() is not None and self.sending_reads() == (entry[0] == "got")
        self.add(entry)

    def restart(self):
        self.add(("restart",))
