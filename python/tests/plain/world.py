"""Both ends under events.

Arrivals: ("whole",), ("cut", n), ("bytes", frame, ending). What comes back: ("whole",), ("cut", n),
("bytes", frame). Events: ("order", cell, word), ("volts", cell, micro), ("check", cell),
("learn", output), ("clear", output), ("store",), ("restore",), ("deliver", arrival), ("finish", acked),
("exchange", arrival, back), ("restart", "device" or "host"), ("reading", output, code, word).
"""
from .converter import Converter, setup_fault
from .host import Host
from .packets import answer_shape, is_closed, pec


def world_fault(setup, passes):
    return setup_fault(setup) or (None if 1 <= passes <= 15 else "H2 Passes")


class World:
    """Of a configuration and passes without a fault."""

    def __init__(self, setup, passes):
        self.device = Converter(setup)
        self.host = Host(setup["address"], setup["count"], passes)
        self.taken, self.stop = 0, None

    def heard(self, arrival):
        """The bytes that arrive of the frame that is being sent, and what ends them."""
        frame = self.host.sending_frame()
        if arrival[0] == "whole":
            return frame, "restart" if self.host.sending_reads() else "stop"
        if arrival[0] == "cut":
            return frame[:arrival[1]], "stop"
        return arrival[1], arrival[2]

    def is_legal_hearing(self, frame, ending):
        sent = self.host.sending_frame()
        return ending == "restart" or frame == sent[:len(frame)] or not is_closed(frame)

    def answered(self, frame, ending):
        reply, _ = self.device.reply(frame, ending)
        return reply if isinstance(reply, list) else []

    def came_back(self, frame, ending, back):
        if back[0] == "bytes":
            return back[1]
        answer = self.answered(frame, ending)
        return answer if back[0] == "whole" else answer[:back[1]]

    def is_legal_return(self, frame, ending, got):
        request = self.host.sending_frame()
        if (frame, ending) == (request, "restart") and got == self.answered(frame, ending):
            return True
        if len(got) < answer_shape(self.host.sending())[0]:
            return True
        return got[-1] != pec([*request, *got[:-1]])

    def bus_cause(self, event):
        """Why a Deliver, Finish or Exchange isn't taken."""
        if self.host.sending() is None:
            return "S2 NothingSent"
        if self.host.sending_reads() != (event[0] == "exchange"):
            return "S3 WrongKind"
        if event[0] == "finish":
            return None
        heard = self.heard(event[1])
        is_legal = self.is_legal_hearing(*heard)
        if event[0] == "exchange":
            is_legal = is_legal and self.is_legal_return(*heard, self.came_back(*heard, event[2]))
        return None if is_legal else "S1 NotBetrayed"

    def step(self, event):
        """The cause why the event isn't taken, and then nothing has changed; otherwise None."""
        kind = event[0]
        if kind in ("deliver", "finish", "exchange"):
            cause = self.bus_cause(event)
            if cause:
                return cause
        if kind == "deliver":
            self.device.hear(*self.heard(event[1]))
        elif kind == "finish":
            self.host.told(("finished", event[1]))
        elif kind == "exchange":
            heard = self.heard(event[1])
            got = self.came_back(*heard, event[2])
            self.device.hear(*heard)
            self.host.told(("got", got))
        elif event == ("restart", "device"):
            self.device.restart()
        elif event == ("restart", "host"):
            self.host.restart()
        elif kind == "reading":
            self.device.set_reading(*event[1:])
        else:
            call = {"volts": self.host.order_micro}.get(kind) or getattr(self.host, kind)
            fault = call(*event[1:])
            return f"S4 Host {fault}" if fault else None
        return None

    def run(self, events):
        """Takes events up to the first that has a cause."""
        for event in events:
            self.stop = self.step(event)
            if self.stop:
                return
            self.taken += 1
