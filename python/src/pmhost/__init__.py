"""A PMBus host that sets supply voltages: Python over the libraries of crates/pm_host_c and crates/pm_device_c.

    from pmhost import Device, LinuxBus
    with LinuxBus(1, 0x58) as bus:
        device = Device(bus, 0x58, limits={0: ("3.2V", "3.465V")})
        print(device.set_voltage(0, "3.3V"))

What the library's calls answer is proved (docs/c.md says of what); this package is tested, and not proved.
"""
from . import _started
from ._version import __version__
from .bus import LinuxBus, ModelBus, NoBus, NoTransfer, PatientBus, Smbus2Bus
from .course import Course, CourseEnd, Job, Wanted
from .delivered import Delivered, NotDelivered
from .device import Device
from .errors import (ChangedRefused, Differs, FrameRefused, HostRefused, LimitRefused, MarginRefused, MemoryRefused, NoFormat, NotDone,
                     NumberRefused, OnOffRefused, OtherSource, PartRefused, PlanRefused, PmhostError, Refused, SetupRefused, Spent, TrimRefused, Unknown)
from .host import Host
from .looks import Looks
from .packets import Packet, code_request, pec, read_answer, read_block, read_plain, read_request, read_write
from .part import ModelPart, ModelPartBus, Output
from .sequence import Heard, RailHeard, Rules, Said, Sequence, SequenceStep, Verdict
from .states import Band, Bus, Known, Limits, RailState, Sending, Step
from .transfers import Transfers
from .values import CODES, LINEAR11, Format
from .voltages import Voltage

__all__ = [
    "Band", "Bus", "CODES", "ChangedRefused", "Course", "CourseEnd", "Delivered", "Device", "Differs", "Format", "FrameRefused", "Heard", "Host",
    "HostRefused", "Job", "Known", "LINEAR11", "LimitRefused", "Limits", "LinuxBus", "Looks", "MarginRefused", "MemoryRefused", "ModelBus",
    "ModelPart", "ModelPartBus", "NoBus", "NoFormat", "NoTransfer", "NotDelivered", "NotDone", "NumberRefused", "OnOffRefused",
    "OtherSource", "Output", "Packet", "PartRefused", "PatientBus", "PlanRefused", "PmhostError", "RailHeard", "RailState", "Refused", "Rules", "Said", "Sending", "Sequence",
    "SequenceStep",
    "SetupRefused", "Smbus2Bus", "Spent", "Step", "Transfers", "TrimRefused", "Unknown", "Verdict", "Voltage", "Wanted", "__version__", "code_request",
    "pec", "read_answer", "read_block", "read_plain", "read_request", "read_write",
]
