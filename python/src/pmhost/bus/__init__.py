"""Buses: that of Linux, that of smbus2, and that of a model part."""
from .linux import LinuxBus, NoBus, NoTransfer, Trace
from .model import ModelBus
from .patient import PatientBus
from .smbus2 import Smbus2Bus

__all__ = ["LinuxBus", "ModelBus", "NoBus", "NoTransfer", "PatientBus", "Smbus2Bus", "Trace"]
