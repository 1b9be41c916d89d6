"""Whether a part is of the model that a board file says."""
from __future__ import annotations

from . import probe
from .device import Device
from .parts import BoardPart
from .reads import Reads


def why_other_model(device: Device, part: BoardPart, has_to_answer: bool = True) -> str:
    """Why a part isn't the model that a board file says: nothing if it is, or the file doesn't say. One that gives no good answer may be the part
    unless it has to answer."""
    if not part.model:
        return ""
    read = Reads(device.bus, part.address).block(probe.MFR_BLOCKS["MFR_MODEL"])
    if read.payload is None:
        return f"{part.name}: MFR_MODEL gave no good answer ({read.why}), and has to begin with \"{part.model}\"" if has_to_answer else ""
    if not read.payload.startswith(part.model.encode("ascii")):
        return f"{part.name}: MFR_MODEL is {probe.block_words(read.payload)}, and has to begin with \"{part.model}\""
    return ""
