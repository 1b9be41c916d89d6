"""The calls of the two libraries, as their headers pmhost.h and pmpart.h have them; one shared object has both."""
import contextlib
import ctypes as c
import os
import sys
from typing import Any, NoReturn

from ._started import is_command

PATH = os.environ.get("PMHOST_LIBRARY") or os.path.join(os.path.dirname(os.path.abspath(__file__)), "libpmhost.so")

# Asked while the package is imported: later the first argument is another.
OF_COMMAND = is_command()

VERSION = 0x0001
HOST_VERSION = 6
HOST_SIZE = 2064
COURSE_VERSION = 1
COURSE_SIZE = 104
SEQUENCE_VERSION = 1
PART_SIZE = 372
CELLS = 49


def _stop(why: str) -> NoReturn:
    """Says why there is no library: in a line to the user of the command, and else as an ImportError."""
    if not OF_COMMAND:
        raise ImportError(why) from None
    with contextlib.suppress(OSError):
        sys.stderr.write(f"pmhost: {why}\n")
    sys.exit(2)


class HostImage(c.Structure):
    _fields_ = [("held", c.c_uint64 * (HOST_SIZE // 8))]


class SendingImage(c.Structure):
    _fields_ = [("kind", c.c_uint8), ("length", c.c_uint8), ("answer", c.c_uint8), ("unused", c.c_uint8),
                ("bytes", c.c_uint8 * 16)]


class StepImage(c.Structure):
    _fields_ = [("kind", c.c_uint16), ("word", c.c_uint16)]


class StandingImage(c.Structure):
    _fields_ = [("is_confirmed", c.c_uint16), ("word", c.c_uint16)]


class WordsImage(c.Structure):
    _fields_ = [("count", c.c_uint16), ("words", c.c_uint16 * 16)]


class CellImage(c.Structure):
    _fields_ = [("code", c.c_uint8), ("output", c.c_uint8), ("standing", StandingImage), ("words", WordsImage)]


class KnownImage(c.Structure):
    _fields_ = [("count", c.c_uint16), ("cells", CellImage * CELLS)]


class FormatImage(c.Structure):
    _fields_ = [("kind", c.c_uint8), ("exponent", c.c_int8), ("m", c.c_int16), ("b", c.c_int16)]


class RegistersImage(c.Structure):
    _fields_ = [("vout_max", c.c_uint8), ("vout_margin_high", c.c_uint8), ("vout_margin_low", c.c_uint8), ("vout_min", c.c_uint8)]


class LimitsImage(c.Structure):
    _fields_ = [("least", c.c_int64), ("most", c.c_int64)]


class BandImage(c.Structure):
    _fields_ = [("least", c.c_int64), ("greatest", c.c_int64)]


class RailImage(c.Structure):
    _fields_ = [("power", c.c_uint8), ("within", c.c_uint8), ("band", c.c_uint8), ("selected", c.c_uint8), ("unused", c.c_uint8 * 4),
                ("ends", BandImage)]


class WishImage(c.Structure):
    _fields_ = [("has", c.c_uint16), ("word", c.c_uint16)]


class WantedImage(c.Structure):
    _fields_ = [("command", WishImage), ("max", WishImage), ("margin_high", WishImage), ("margin_low", WishImage), ("min", WishImage)]


class CourseImage(c.Structure):
    _fields_ = [("held", c.c_uint64 * (COURSE_SIZE // 8))]


class CourseEndImage(c.Structure):
    _fields_ = [("kind", c.c_uint8), ("number", c.c_uint8), ("code", c.c_uint8), ("unused", c.c_uint8), ("word", c.c_uint16),
                ("fault", c.c_uint16)]


class CourseJobImage(c.Structure):
    _fields_ = [("kind", c.c_uint8), ("code", c.c_uint8), ("word", c.c_uint16)]


class HeardImage(c.Structure):
    _fields_ = [("asked", c.c_uint8), ("fault", c.c_uint8), ("word", c.c_uint16)]


# What is asked of a rail, in the order of its memory.
QUESTIONS = ("before", "ov_fault_limit", "ov_warn_limit", "uv_warn_limit", "uv_fault_limit", "status_word", "status_vout", "status_iout",
             "status_input", "status_temperature", "read_vout", "power_good_on", "power_good_off")


class RailHeardImage(c.Structure):
    _fields_ = [("output", c.c_uint8), ("look", c.c_uint8), ("fault_limits", c.c_uint8), ("lacks", c.c_uint8), ("within", c.c_uint16),
                ("rounds", c.c_uint16), ("round", c.c_uint16)] + [(name, HeardImage) for name in QUESTIONS]


class SequenceWishImage(c.Structure):
    _fields_ = [("kind", c.c_uint16), ("word", c.c_uint16), ("microvolts", c.c_int32)]


class SequenceStepImage(c.Structure):
    _fields_ = [("host", c.c_uint8), ("output", c.c_uint8), ("kind", c.c_uint8), ("byte", c.c_uint8), ("unused", c.c_uint8 * 4)] + [
        (name, SequenceWishImage) for name in ("command", "max", "margin_high", "margin_low", "min")] + [
            ("looks", c.c_uint8), ("fault_limits", c.c_uint8), ("lacks", c.c_uint8), ("tells_power_good", c.c_uint8), ("within", c.c_uint16),
            ("rounds", c.c_uint16), ("wait", c.c_uint32), ("before", HeardImage)]


class SequenceRecordImage(c.Structure):
    _fields_ = [("back", SequenceStepImage), ("mark", c.c_uint16), ("version", c.c_uint16), ("look", RailHeardImage), ("unused", c.c_uint8 * 2)]


class JudgementImage(c.Structure):
    _fields_ = [("fault", c.c_uint8), ("warning", c.c_uint8), ("fault_word", c.c_uint16), ("warning_word", c.c_uint16)]


class SaidImage(c.Structure):
    _fields_ = [("kind", c.c_uint8), ("number", c.c_uint8), ("code", c.c_uint8), ("verdict", c.c_uint8), ("bit", c.c_uint8),
                ("has_microvolts", c.c_uint8), ("word", c.c_uint16), ("fault", c.c_uint16), ("step", c.c_uint16), ("milliseconds", c.c_uint32),
                ("microvolts", c.c_int64)]


class SequenceImage(c.Structure):
    # `look` stands in what the header calls `held`.
    _fields_ = [("mark", c.c_uint16), ("version", c.c_uint16), ("left", c.c_uint16), ("leaves", c.c_uint8), ("asks", c.c_uint8), ("said", SaidImage),
                ("tries", c.c_uint16), ("begun", c.c_uint16), ("host", c.c_uint8), ("keeps_back", c.c_uint8), ("ends_at_restart", c.c_uint8),
                ("unused", c.c_uint8), ("held", c.c_uint64 * 30), ("look", RailHeardImage), ("more", c.c_uint8 * 34)]


class NameImage(c.Structure):
    _fields_ = [("text", c.c_char * 32)]


class PacketImage(c.Structure):
    _fields_ = [("kind", c.c_uint8), ("page", c.c_uint8), ("code", c.c_uint8), ("count", c.c_uint8),
                ("word", c.c_uint16)]


class PayloadImage(c.Structure):
    _fields_ = [("length", c.c_uint8), ("bytes", c.c_uint8 * 5), ("word", c.c_uint16)]


class BlockImage(c.Structure):
    _fields_ = [("length", c.c_uint8), ("bytes", c.c_uint8 * 32)]


class OutputImage(c.Structure):
    _fields_ = [("mode", c.c_uint8), ("unused", c.c_uint8)] + [
        (name, c.c_uint16) for name in ("operation", "command", "max", "high", "low", "min")]


class ConfigImage(c.Structure):
    _fields_ = [("address", c.c_uint8), ("outputs", c.c_uint8), ("r", c.c_int8), ("unused", c.c_uint8),
                ("m", c.c_int16), ("b", c.c_int16), ("protect", c.c_uint16), ("starts", OutputImage * 8)]


class PartImage(c.Structure):
    # Nothing here looks into it.
    _fields_ = [("memory", c.c_uint16 * (PART_SIZE // 2))]


class ReplyImage(c.Structure):
    _fields_ = [("length", c.c_uint8), ("frame_fault", c.c_uint8), ("bytes", c.c_uint8 * 16)]


_u8, _u16, _u32, _u64, _i64, _at = c.c_uint8, c.c_uint16, c.c_uint32, c.c_uint64, c.c_int64, c.POINTER
_host, _part, _bytes = _at(HostImage), _at(PartImage), c.c_char_p
_wanted, _course, _sequence = _at(WantedImage), _at(CourseImage), _at(SequenceImage)

# Each call: what it answers, and what it takes.
CALLS = {
    "pm_version": (_u16, []),
    "pm_host_size": (_u64, []),
    "pm_host_version": (_u16, []),
    "pm_host_new": (_u8, [_host, _u8, _u8, _u8]),
    "pm_host_new_with": (_u8, [_host, _u8, _u8, _u8, _at(RegistersImage)]),
    "pm_host_set_limits": (_u8, [_host, _u8, _i64, _i64]),
    "pm_host_no_limits": (_u8, [_host, _u8]),
    "pm_host_limits": (_u8, [_host, _u8, _at(LimitsImage)]),
    "pm_host_limits_state": (_u8, [_host, _u8]),
    "pm_host_band": (_u8, [_host, _u8, _at(BandImage)]),
    "pm_host_order": (_u8, [_host, _u8, _u8, _u16]),
    "pm_host_order_microvolts": (_u8, [_host, _u8, _u8, _i64]),
    "pm_host_check": (_u8, [_host, _u8, _u8]),
    "pm_host_learn": (_u8, [_host, _u8]),
    "pm_host_clear": (_u8, [_host, _u8]),
    "pm_host_store": (_u8, [_host]),
    "pm_host_restore": (_u8, [_host]),
    "pm_host_frame": (_u8, [_host, _at(SendingImage)]),
    "pm_host_write_ended": (StepImage, [_host, _u8]),
    "pm_host_read_ended": (StepImage, [_host, _bytes, _u64]),
    "pm_host_restart": (_u8, [_host]),
    "pm_host_confirmed_word": (_u8, [_host, _u8, _u8, _at(StandingImage)]),
    "pm_host_possible_words": (_u8, [_host, _u8, _u8, _at(WordsImage)]),
    "pm_host_format": (_u8, [_host, _u8, _at(FormatImage)]),
    "pm_host_known_cells": (_u8, [_host, _at(KnownImage)]),
    "pm_host_restart_seen": (_u8, [_host]),
    "pm_host_rail": (_u8, [_host, _u8, _at(RailImage)]),
    "pm_course_size": (_u64, []),
    "pm_course_version": (_u16, []),
    "pm_course_survey": (_u8, [_course, _u8, _u16]),
    "pm_course_words": (_u8, [_course, _u8, _wanted, _u16]),
    "pm_course_microvolts": (_u8, [_course, _u8, _u8, _i64, _u16]),
    "pm_course_power": (_u8, [_course, _u8, _u8, _u16]),
    "pm_course_accept": (_u8, [_course, _host, _u32]),
    "pm_course_want": (_u8, [_course, _u8, _i64]),
    "pm_course_next": (_u8, [_course, _host, _at(CourseJobImage)]),
    "pm_course_frame": (_u8, [_course, _host, _at(SendingImage)]),
    "pm_course_job_now": (_u8, [_course, _at(CourseJobImage)]),
    "pm_course_write_ended": (StepImage, [_course, _host, _u8]),
    "pm_course_read_ended": (StepImage, [_course, _host, _bytes, _u64]),
    "pm_course_after_write": (StepImage, [_course, _host, _u8, _u8, _at(SendingImage)]),
    "pm_course_after_read": (StepImage, [_course, _host, _bytes, _u64, _u8, _at(SendingImage)]),
    "pm_course_ended": (_u8, [_course, _at(CourseEndImage)]),
    "pm_course_goal": (_u8, [_course, _host, _u8, _at(_u16)]),
    "pm_sequence_size": (_u64, []),
    "pm_sequence_version": (_u16, []),
    "pm_sequence_new": (None, [_sequence, _u16, _u8]),
    "pm_sequence_next": (_u8, [_sequence, _host, _at(SequenceStepImage), _u64, _at(SequenceRecordImage), _u64, _at(SendingImage)]),
    "pm_sequence_write_ended": (StepImage, [_sequence, _host, _u8]),
    "pm_sequence_read_ended": (StepImage, [_sequence, _host, _bytes, _u64]),
    "pm_sequence_judge": (_u8, [_at(SequenceRecordImage), _host, _u16, _at(JudgementImage)]),
    "pm_refusal_name": (_u8, [_u8, _at(NameImage)]),
    "pm_end_name": (_u8, [_u16, _at(NameImage)]),
    "pm_microvolts": (_u8, [_at(FormatImage), _u16, _at(_i64)]),
    "pm_nearest_word": (_u8, [_at(FormatImage), _i64, _at(_u16)]),
    "pm_at_most": (_u8, [_at(FormatImage), _i64, _at(_u16)]),
    "pm_at_least": (_u8, [_at(FormatImage), _i64, _at(_u16)]),
    "pm_pec": (_u8, [_bytes, _u64]),
    "pm_packet_write": (_u8, [_u8, _at(PacketImage), _at(SendingImage)]),
    "pm_packet_read_write": (_u8, [_u8, _bytes, _u64, _at(PacketImage)]),
    "pm_packet_read_request": (_u8, [_u8, _bytes, _u64, _at(PacketImage)]),
    "pm_packet_read_answer": (_u8, [_u8, _at(PacketImage), _bytes, _u64, _at(PayloadImage)]),
    "pm_read_block": (_u8, [_u8, _u8, _bytes, _u64, _at(BlockImage)]),
    "pm_read_plain": (_u8, [_u8, _u8, _u8, _bytes, _u64, _at(BlockImage)]),
    "pm_paged_request": (_u8, [_u8, _u8, _u8, _u8, _at(SendingImage)]),
    "pm_read_paged": (_u8, [_u8, _u8, _u8, _u8, _bytes, _u64, _at(BlockImage)]),
    "pm_part_size": (_u64, []),
    "pm_part_new": (_u8, [_part, _at(ConfigImage)]),
    "pm_part_hear": (_u8, [_part, _bytes, _u64, _u8, _at(ReplyImage)]),
    "pm_part_restart": (_u8, [_part]),
    "pm_part_set_reading": (_u8, [_part, _u8, _u8, _u16]),
    "pm_part_word": (_u8, [_part, _u8, _u8, _at(_u16)]),
    "pm_part_stored_word": (_u8, [_part, _u8, _u8, _at(_u16)]),
    "pm_part_page": (_u8, [_part, _at(_u8)]),
    "pm_part_commanded_microvolts": (_u8, [_part, _u8, _at(_i64)]),
    "pm_part_on_state": (_u8, [_part, _u8, _at(_u8)]),
    "pm_part_status_byte": (_u8, [_part, _u8, _at(_u8)]),
    "pm_part_status_word": (_u8, [_part, _u8, _at(_u16)]),
    "pm_part_status_vout": (_u8, [_part, _u8, _at(_u8)]),
    "pm_part_status_cml": (_u8, [_part, _at(_u8)]),
}


def _load() -> c.CDLL:
    """The library, whose calls, versions and sizes are those that this package is for."""
    try:
        loaded = c.CDLL(PATH)
        getattr(loaded, "pm_part_size")
    except (OSError, AttributeError) as fault:
        _stop(f"{fault}; `pip install ./python` makes this package's library, PMHOST_LIBRARY names another")
    for name, (answers, takes) in CALLS.items():
        if not hasattr(loaded, name):
            _stop(f"{PATH} is another library than this package is for: it has no {name}")
        call = getattr(loaded, name)
        call.restype, call.argtypes = answers, takes
    found = (loaded.pm_version() >> 8, loaded.pm_host_version(), loaded.pm_host_size(), loaded.pm_course_version(), loaded.pm_course_size(),
             loaded.pm_sequence_version(), loaded.pm_sequence_size(), loaded.pm_part_size())
    wanted = (VERSION >> 8, HOST_VERSION, c.sizeof(HostImage), COURSE_VERSION, c.sizeof(CourseImage), SEQUENCE_VERSION,
              c.sizeof(SequenceImage), c.sizeof(PartImage))
    if found != wanted:
        _stop(f"{PATH} is another library than this package is for: it says {found}, and not {wanted}")
    return loaded


class Library:
    """The library's calls. The first that is asked for loads it, so that what needs none, as `pmhost --help`, runs without."""

    def __getattr__(self, name: str) -> Any:
        if name not in CALLS:
            raise AttributeError(name)
        loaded = _load()
        vars(self).update({each: getattr(loaded, each) for each in CALLS})
        return vars(self)[name]


library = Library()
if not OF_COMMAND:
    library.pm_version()
