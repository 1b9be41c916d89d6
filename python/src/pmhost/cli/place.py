"""A part of a call, at its place: its bus, opened at its first use, and the host that is made for it."""
from __future__ import annotations

import contextlib
from typing import TYPE_CHECKING

from .. import clock
from ..bus import LinuxBus, ModelBus, NoBus, PatientBus, Trace
from ..bus.patient import Waits, timeout_of
from ..part import ModelPartBus
from ..parts import MODEL_BUS, BoardPart
from ..device import Device
from ..log import Log
from ..on_off import CONFIG
from ..survey import answers
from ..transfers import Transfers
from ..voltages import of_microvolts

if TYPE_CHECKING:
    from .call import Call

HELD_LOW = ("a line is held low: address 02, which no part may have, acknowledges: clock SCL nine times and send a stop, "
            "cycle the supply last")


class Place:
    """The part, with limits of its outputs, driven as the call says. `outputs` is how many a model part has."""

    def __init__(self, call: Call, part: BoardPart, limits: dict[int, tuple[int, int]], trace: Trace,
                 outputs: int | None = None, log: Log | None = None) -> None:
        self.call, self.part, self.limits, self._trace, self._log = call, part, limits, trace, log
        self._outputs = outputs or part.outputs
        self._bus: ModelPartBus | LinuxBus | None = None
        self._pmbus: Device | None = None

    # ---- The bus ----

    def open(self) -> ModelPartBus | LinuxBus:
        """The bus, opened at its first use. NoBus, too, if a line is held low."""
        if self._bus is None:
            self._bus = self._made()
            if self.is_held_low():
                raise NoBus(HELD_LOW)
        return self._bus

    def _made(self) -> ModelPartBus | LinuxBus:
        part, call = self.part, self.call
        if part.bus == MODEL_BUS:
            return ModelBus(part.address, self._outputs, self._trace)
        return LinuxBus(part.bus, part.address, call.is_forced, self._trace, call.kernel, call.is_shared)

    def is_held_low(self) -> bool:
        """Whether the open bus acknowledges an address that no part may have."""
        return isinstance(self._bus, LinuxBus) and self._bus.is_held_low()

    def patient(self, busy_timeout: int | None = None) -> ModelPartBus | PatientBus:
        """The bus that waits for a busy part, which a model part never is; without a time that of the call."""
        bus, call = self.open(), self.call
        if not isinstance(bus, LinuxBus):
            return bus
        return PatientBus(bus, call.delay, call.busy_timeout if busy_timeout is None else busy_timeout, self.part.ready, self.part.store_time)

    def close(self) -> None:
        """Closes the bus, if it was opened."""
        if self._bus is not None:
            with contextlib.suppress(OSError):
                self._bus.close()

    # ---- The part ----

    def pmbus(self) -> Device:
        """The part on the bus, through a host of its own."""
        if self._pmbus is None:
            bus, part = self.patient(), self.part
            lacks = (*part.lacks, *[CONFIG] * (part.bus == MODEL_BUS))
            self._pmbus = Device(bus, part.address, part.outputs, self.call.passes, lacks=lacks, looks=None, trims=part.trims)
            if self._log is not None:
                self._log.listen(self._pmbus.host, f"{part.name} bus {part.bus} address {part.address:02X}".strip(), self._pmbus.lacks)
            for output, pair in self.limits.items():
                self._pmbus.host.set_limits(output, *(of_microvolts(each) for each in pair))
            if self.call.is_unlimited:
                for output in set(range(part.outputs)) - set(self.limits):
                    self._pmbus.host.no_limits(output)
        return self._pmbus

    @property
    def is_begun(self) -> bool:
        """Whether its bus was opened for a host."""
        return self._pmbus is not None

    @property
    def has_written(self) -> bool:
        """Whether a frame of the last job was a write."""
        return self._pmbus is not None and self._pmbus.transfers.has_written

    def ask_operation(self, behind: str = "") -> str:
        """A check of OPERATION of output 0, again and again within the time for a busy part, which is long after a `store` and a `restore`.
        Nothing if a good answer came, otherwise why none did. The transfers of the job before stay those of the part."""
        part, waits = self.pmbus(), Waits(clock.until() + timeout_of(self.call.busy_timeout, behind, self.part.store_time) / 1000)
        while True:
            transfers = Transfers()
            part.host.check(0, "OPERATION")
            if part.host.run(part.bus, transfers).kind == "done":
                return ""
            if not waits.wait():
                return transfers.why() or "no good answer"

    def is_there(self) -> bool:
        """Whether the part answers a plain read, whatever it makes of PAGE_PLUS."""
        return answers(self.pmbus())

    def unsure_of_last(self, behind: str) -> tuple[int, str]:
        """After a command that nothing reads back: whether a line is held low, and whether the part answers. The status, 0 if
        all is well, and why not."""
        if self.is_held_low():
            return 2, HELD_LOW
        why = self.ask_operation(behind)
        return (1, f"OPERATION of output 0 after it: {why}") if why else (0, "")
