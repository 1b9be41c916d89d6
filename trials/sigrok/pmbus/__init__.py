"""
This decoder stacks on top of the 'i2c' decoder. It tells packets of PMBus 1.3 with packet error code: address, page,
command, word, value, and whether the PEC is right. A row of warnings marks where a packet reached another page than was written.
"""

from .pd import Decoder
