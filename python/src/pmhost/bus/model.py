"""A model part as a bus: nothing outside changes."""
from __future__ import annotations

import errno

from ..part import ModelPart, ModelPartBus, Output
from .linux import NoTransfer, Trace


class ModelBus(ModelPartBus):
    """A bus with one model part, whose transfers go to a trace as those of LinuxBus do."""

    def __init__(self, address: int, outputs: int = 2, trace: str | Trace | None = None) -> None:
        super().__init__(ModelPart(address, [Output()] * outputs))
        self.trace = trace if isinstance(trace, Trace) else Trace(trace)

    def __repr__(self) -> str:
        return f"ModelBus(0x{self.part.address:02X})"

    def write(self, frame: bytes) -> bool:
        if not super().write(frame):
            raise self._failed(frame)
        self.trace.wrote(frame)
        return True

    def read(self, request: bytes, count: int) -> bytes:
        answer = super().read(request, count)
        if not answer:
            raise self._failed(request)
        self.trace.was_read(request, answer)
        return answer

    def _failed(self, frame: bytes) -> NoTransfer:
        failed = NoTransfer("Remote I/O error", errno.EREMOTEIO)
        self.trace.failed(frame, failed)
        return failed

    def close(self) -> None:
        self.trace.close()
