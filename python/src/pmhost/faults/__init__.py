"""The proved host and a model part over a bus that loses, cuts, damages and repeats frames; and beside it a host that selects by
PAGE and believes acknowledgements, which is compared with it.
"""
from .bus import FaultyBus, Struck, draw_faults, heard_by, read_faults
from .figures import ADDRESS, Bench, Figures, figures
from .hosts import Orderer, PageHost, ProvedHost

__all__ = ["ADDRESS", "Bench", "FaultyBus", "Figures", "Orderer", "PageHost", "ProvedHost", "Struck", "draw_faults", "figures",
           "heard_by", "read_faults"]
