"""A bench for anybody's host: a program drives the proved converter over a bus on which, in each run, one fault strikes one transfer; what
the converter's registers took is judged against what they took in a run without a fault.
"""
from .causes import Cause, causes
from .program import KINDS, Program, Run, drawn_faults, drawn_pairs
from .verdict import Judge, Unjudged, Verdict

__all__ = ["KINDS", "Cause", "Judge", "Program", "Run", "Unjudged", "Verdict", "causes", "drawn_faults", "drawn_pairs"]
