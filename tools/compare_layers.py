#!/usr/bin/env python3
"""Compares what the C headers, the Python package and the Rust package say of the two libraries with the types of crates/:
the version; the names of the calls; each refusal's number, letter and name; the sizes and versions; of each struct the names and
the widths of its fields; and the numbers of steps, of what is said of them and of verdicts. By text alone: nothing is built or run.

    tools/compare_layers.py

A line for each difference; the last line says how many comparisons passed and failed.
"""
import ast
import os
import re
import sys

sys.dont_write_bytecode = True

from program import ROOT, no_words  # noqa: E402
from tally import Tally  # noqa: E402

WIDTHS = {"uint8_t": "u8", "int8_t": "i8", "uint16_t": "u16", "int16_t": "i16", "int64_t": "i64", "uint64_t": "u64", "char": "u8",
          "c_uint8": "u8", "c_int8": "i8", "c_uint16": "u16", "c_int16": "i16", "c_int64": "i64", "c_uint64": "u64", "c_char": "u8"}
# The structs, by their names in C; with Rattle's, and the file. Python's and Rust's are called as Rattle's images are.
STRUCTS = {
    "sending": ("SendingImage", "pm_memory/src/sending_image.rt"), "step": ("HostStep", "pm_memory/src/host_step.rt"),
    "words": ("WordsImage", "pm_host/src/words_image.rt"), "standing": ("StandingImage", "pm_host/src/standing_image.rt"),
    "cell": ("KnownCell", "pm_memory/src/known_cells.rt"), "known": ("KnownCells", "pm_memory/src/known_cells.rt"),
    "registers": ("RegistersImage", "pm_memory/src/guard_image.rt"),
    "limits": ("LimitsImage", "pm_memory/src/guard_image.rt"), "band": ("BandImage", "pm_memory/src/limits.rt"),
    "rail": ("RailImage", "pm_memory/src/rail.rt"), "course_end": ("CourseEndImage", "pm_memory/src/course_end_image.rt"),
    "course_job": ("CourseJobImage", "pm_memory/src/course.rt"),
    "wish": ("WishImage", "pm_memory/src/wanted_image.rt"), "wanted": ("WantedImage", "pm_memory/src/wanted_image.rt"),
    "format": ("FormatNumbers", "pm_memory/src/format_numbers.rt"), "name": ("NameImage", "pm_memory/src/names.rt"),
    "packet": ("PacketImage", "pm_memory/src/packet.rt"), "payload": ("PayloadImage", "pm_memory/src/answer.rt"),
    "block": ("BlockImage", "pm_memory/src/other_read.rt"),
    "part_output": ("OutputImage", "pm_device/src/image.rt"), "part_config": ("ConfigImage", "pm_device/src/image.rt"),
    "part_reply": ("ReplyImage", "pm_device_c/src/reply_image.rt"),
}
COUNTS = {"PM_CELLS": "49", "CELLS": "49", "Cell::PLACES": "49", "ROOM": "32", "Reg::COUNT": "6"}
FAULTS = {"HostFault": "pm_host/src/fault.rt", "NumFault": "pm_num/src/fault.rt", "LimitFault": "pm_limits/src/fault.rt",
          "FrameFault": "pm_frame/src/fault.rt", "DeviceFault": "pm_device/src/fault.rt", "ConfigFault": "pm_device/src/config_fault.rt",
          "PlanFault": "pm_rail/src/fault.rt", "DeliveryFault": "pm_delivery/src/fault.rt",
          "AcceptFault": "pm_course/src/accept_fault.rt"}
# The numbers of lists by their names in C: those of Python's tables, and of Rust's constants.
ACTS = {"sets": "PM_SETS", "turns": "PM_TURNS", "surveys": "PM_STEP_SURVEYS", "rests": "PM_STEP_RESTS"}
KINDS = {"reached": "PM_REACHED", "refused": "PM_REFUSED", "differs": "PM_STILL_DIFFERS", "spent": "PM_SPENT", "format": "PM_OTHER_FORMAT",
         "source": "PM_OTHER_SOURCE", "changed": "PM_STEP_CHANGED", "restarted": "PM_PART_RESTARTED", "no way back": "PM_WAY_BACK_REFUSED",
         "left": "PM_STEPS_LEFT", "beyond": "PM_GOAL_BEYOND", "unjudged": "PM_GOAL_UNJUDGED", "does": "PM_RAIL_DOES", "fails": "PM_RAIL_FAILS",
         "order": "PM_ORDER_NEXT"}
VERDICTS = {"not yet": "PM_NOT_YET", "delivers": "PM_DELIVERS", "commanded off": "PM_COMMANDED_OFF", "not known to be on": "PM_NOT_KNOWN_ON",
            "off": "PM_IS_OFF", "fault": "PM_NEW_FAULT", "outside": "PM_OUTSIDE_LIMITS", "beyond": "PM_BEYOND",
            "power good alone": "PM_POWER_GOOD_ALONE", "no power good": "PM_NO_POWER_GOOD", "not known": "PM_DELIVERY_NOT_KNOWN",
            "went off": "PM_WENT_OFF", "still on": "PM_STILL_ON", "delivers by READ_VOUT": "PM_DELIVERS_BY_READ_VOUT"}
STEPS = {"STAY": "PM_STAY", "WORD": "PM_WORD", "MICROVOLTS": "PM_MICROVOLTS", "SETS": "PM_SETS", "TURNS": "PM_TURNS", "SURVEYS": "PM_STEP_SURVEYS",
         "RESTS": "PM_STEP_RESTS", "LOOK_NOT": "PM_LOOK_NOT", "LOOK": "PM_LOOK", "LOOK_MUST": "PM_LOOK_MUST"}
# The words of an output, which C and Python name and Rattle and Rust count.
REGISTERS = ["operation", "command", "max", "high", "low", "min"]


def read(*path):
    with open(os.path.join(ROOT, *path), encoding="utf-8") as file:
        return file.read()


def without_comments(text):
    return re.sub(r"/\*.*?\*/|//[^\n]*|(?m:^\s*#[^\[\n!][^\n]*)", "", text, flags=re.DOTALL)


def sources(crate):
    folder = os.path.join(ROOT, "crates", crate, "src")
    return {name: read(folder, name) for name in os.listdir(folder) if name.endswith(".rt")}


def header(*path):
    return re.sub(r"/\*.*?\*/", "", read(*path), flags=re.DOTALL)


CRATES = {"pm_host_c": sources("pm_host_c"), "pm_device_c": sources("pm_device_c")}
WORK = sources("pm_memory")  # what pm_host_c exports the calls of
HEADERS = {"pm_host_c": header("crates/pm_host_c/include/pmhost.h"), "pm_device_c": header("crates/pm_device_c/include/pmpart.h")}
PYTHON = read("python/src/pmhost/_library.py")
RUST = without_comments(read("rust/src/ffi.rs"))


# ---- Versions ----

def versions():
    """One version everywhere: that of the programs, of both packages, and, in two bytes, of the library and its callers."""
    own = re.search(r'pub const VERSION: &str = "(.*)";', read("crates/pm_tool/src/commandline/options.rt"))[1]
    yield "versions", own, {"python": re.search(r'^version = "(.*)"', read("python/pyproject.toml"), re.MULTILINE)[1],
                            "python's module": re.search('^__version__ = "(.*)"', read("python/src/pmhost/_version.py"), re.MULTILINE)[1],
                            "rust": re.search(r'^version = "(.*)"', read("rust/Cargo.toml"), re.MULTILINE)[1]}
    major, minor, _ = map(int, own.split("."))
    forms = {"its type": ("crates/pm_host_c/src/host.rt", r"^const VERSION: u16 = (\w+);"), "its header": ("crates/pm_host_c/include/pmhost.h", r"^#define PM_VERSION (\w+)"),
             "python": ("python/src/pmhost/_library.py", r"^VERSION = (\w+)"), "rust": ("rust/src/ffi.rs", r"^pub const VERSION: u16 = (\w+);")}
    yield "the library's version", 256 * major + minor, {layer: int(re.search(form, read(path), re.MULTILINE)[1], 0) for layer, (path, form) in forms.items()}


# ---- Calls ----

def calls():
    both = set()
    for crate, files in CRATES.items():
        types = {it for text in files.values() for it in re.findall(r'pub extern "C" fn (pm_\w+)\(', text)}
        yield f"calls of {crate}", types, {"its header": set(re.findall(r"^(?:void|uint\d+_t|pm_\w+) (pm_\w+)\(", HEADERS[crate], re.MULTILINE))}
        both |= types
    yield "calls for Python", both, {"python": set(re.findall(r'^    "(pm_\w+)": \(', PYTHON, re.MULTILINE))}
    yield "calls for Rust", both, {"rust": set(re.findall(r"pub fn (pm_\w+)\(", RUST))}


# ---- Refusals ----

def words_of_types():
    """The words of each variant of each type of faults."""
    return {(name, variant): words for name, path in FAULTS.items() for variant, words in
            re.findall(rf'{name}::(\w+)(?:\([^)]*\))? => "([A-Z]\d \w+)"', read("crates", path))}


def numbers_of_types():
    """The words of each number that a type of faults has."""
    words = words_of_types()
    return {int(number, 0): words[name, variant] for name, path in FAULTS.items() for variant, number in
            re.findall(rf"{name}::(\w+)(?:\([^)]*\))? => (\d\w*),", read("crates", path)) if (name, variant) in words}


def constants(files):
    """The numbers of a crate's own."""
    return {name: int(number, 0) for name, number in re.findall(r"pub const (\w+): u8 = (\w+);", files["numbers.rt"])}


def named():
    """The words of each number, as pm_refusal_name has them."""
    words, text = words_of_types(), WORK["names.rt"]
    found = {int(number, 0): words[name, variant] for number, name, variant in re.findall(
        r"(0x\w+) => (?:Some\()?(?:LimitFault::Host\()?(?:HostFault::Num\()?(\w+Fault)::(\w+)", text) if (name, variant) in words}
    return found | {int(number, 0): name for number, name in re.findall(r'(0x[EF]\w) => Some\("(\w+)"\)', text)}


def refusals():
    """Each number and its words, by the types, by what C is told, and by each layer."""
    types, own, part, names = numbers_of_types(), constants(WORK), constants(CRATES["pm_device_c"]), named()
    alone = {number: camel(name) for name, number in own.items() if number >= 0xE0}
    of_part = {part[name]: camel(name) for name in ("NO_PART", "NO_READING")}
    yield "names", types | alone | of_part, {"pm_refusal_name": names}
    yield "refusals", names, {"rust": {int(number, 0): re.sub(r"^([A-Z]\d)", r"\1 ", name) for name, number in re.findall(
        r"^    (\w+) = (0x\w\w),", read("rust/src/refusal.rs"), re.MULTILINE)}}
    text = HEADERS["pm_host_c"]
    found = {int(number, 0): spaced(name) for name, number in re.findall(r"\bPM_([A-Z]\d_\w+) = (\w+)", text)}
    found |= {int(number, 0): camel(name) for name, number in re.findall(r"\bPM_(NO_\w+|OTHER_FRAME) = (0x[EF]\w)", text)}
    yield "refusals of pm_host_c", {number: it for number, it in types.items() if it[0] in "HNLFP"} | alone, {"its header": found}
    found = {re.sub("^(PART|HEARD)_", "", name): int(number, 0) for name, number in re.findall(r"\bPM_(\w+) = (\w+)", HEADERS["pm_device_c"])}
    faults = {number: spaced(name) for name, number in found.items() if re.match(r"[A-Z]\d_", name)}
    yield "refusals of pm_device_c", {number: it for number, it in types.items() if it[0] in "VK"}, {"its header": faults}
    wanted = part | {"OK": part["ACCEPTED"], "TOO_LARGE": next(number for number, it in types.items() if it == "N5 TooLarge")}
    del wanted["ACCEPTED"]
    yield "numbers of pm_device_c", wanted, {"its header": {name: number for name, number in found.items() if number not in faults}}


def camel(name):
    return "".join(word.capitalize() for word in name.split("_"))


def spaced(name):
    letter, _, rest = name.partition("_")
    return f"{letter} {camel(rest)}"


def letters():
    """Python has what to do about each letter; names it takes from the library."""
    types = {words.split()[0] for words in words_of_types().values()}
    yield "letters", types, {"python": set(re.findall(r'^    "([A-Z]\d)": "', read("python/src/pmhost/errors.py"), re.MULTILINE))}


# ---- Sizes ----

def sizes():
    """Versions, layouts, and the bytes of a host and of a part: the types' by their tests, which are proved."""
    tests = {"pm_host_size": read("crates/pm_host_c/src/tests.rt"), "pm_course_size": read("crates/pm_host_c/src/tests/courses.rt"),
             "pm_part_size": CRATES["pm_device_c"]["tests.rt"]}
    size = {name: int(re.search(rf"{name}\(\), &(\d+)", text)[1]) for name, text in tests.items()}
    course = int(re.search(r"VERSION: u16 = (\d+);", read("crates/pm_memory/src/course_image.rt"))[1])
    layout = {crate: int(re.search(r"VERSION: u16 = (\d+);", read("crates", crate, "src/image.rt"))[1]) for crate in ("pm_host", "pm_device")}
    host = {"VERSION": int(re.search(r"const VERSION: u16 = (\w+);", CRATES["pm_host_c"]["host.rt"])[1], 0), "HOST_VERSION": layout["pm_host"],
            "HOST_SIZE": size["pm_host_size"], "COURSE_VERSION": course, "COURSE_SIZE": size["pm_course_size"],
            "CELLS": int(COUNTS["PM_CELLS"])}
    part = {"PART_VERSION": layout["pm_device"], "PART_SIZE": size["pm_part_size"]}
    for crate, types in ("pm_host_c", host), ("pm_device_c", part):
        yield f"sizes of {crate}", types, {"its header": {it: int(re.search(rf"#define PM_{it} (\w+)", HEADERS[crate])[1], 0) for it in types}}
    yield "sizes for Python", host, {"python": {it: int(re.search(rf"^{it} = (\w+)", PYTHON, re.MULTILINE)[1], 0) for it in host}}
    both = host | {"PART_SIZE": part["PART_SIZE"]}
    yield "sizes for Rust", both, {"rust": {it: int(re.search(rf"pub const {it}: \w+ = (\w+);", RUST)[1], 0) for it in both}}


# ---- Structs ----

def width(name):
    name = name.strip().removeprefix("c.").removeprefix("pm_host::")
    return WIDTHS.get(name, name)


def counted(fields):
    """The fields, with the words of an output under one name."""
    place = next((at for at in range(len(fields)) if [it[0] for it in fields[at:at + 6]] == REGISTERS), None)
    if place is None or {it[1:] for it in fields[place:place + 6]} != {("u16", "")}:
        return fields
    return [*fields[:place], ("words", "u16", "6"), *fields[place + 6:]]


def fields_of_c(name):
    body = re.search(rf"typedef struct \{{([^}}]*)\}} pm_{name};", HEADERS["pm_device_c" if name.startswith("part_") else "pm_host_c"])[1]
    found = []
    for declared in filter(None, (it.strip() for it in body.split(";"))):
        kind, _, names = declared.partition(" ")
        for each in names.split(","):
            field, _, count = each.strip().rstrip("]").partition("[")
            found.append((field, width(kind.removeprefix("pm_")), COUNTS.get(count, count)))
    return counted(found)


def fields_of_rust(text, name):
    body = re.search(rf"pub struct {name} \{{(.*?)\n\}}", text, re.DOTALL)[1]
    found = []
    for field, kind in re.findall(r"pub (\w+): ([^\n]+),\n", body + "\n"):
        whole = re.match(r"\[(.+); (.+)\]", kind)
        kind, count = whole.groups() if whole else (kind, "")
        found.append((field, width(kind), COUNTS.get(count, count)))
    return found


def fields_of_python(name):
    body = re.search(rf"class {name}\(c\.Structure\):\n    _fields_ = (.*?)\n\n", PYTHON, re.DOTALL)[1]
    found = [(field, width(kind), COUNTS.get(count, count)) for field, kind, count in
             re.findall(r'\("(\w+)", ([\w.]+)(?: \* (\w+))?\)', body)]
    for kind, names in re.findall(r"\(name, ([\w.]+)\) for name in \(([^)]*)\)", body):
        found += [(name, width(kind), "") for name in re.findall(r'"(\w+)"', names)]
    return counted(found)


def kind_of(kind):
    """The kind of a field under one name in all layers."""
    known = {"StandingImage": "standing", "WordsImage": "words", "CellImage": "cell", "KnownCell": "cell", "OutputImage": "part_output",
             "BandImage": "band", "WishImage": "wish"}
    return known.get(kind, kind)


def lists():
    """The numbers of steps, of what is said of them and of verdicts, by their names in the header."""
    header = {name: int(number, 0) for name, number in re.findall(r"\b(PM_\w+) = (0x[0-9A-F]+|\d+)\b", HEADERS["pm_host_c"])}
    text = read("python/src/pmhost/sequence.py")
    python = {name: ast.literal_eval(re.search(rf"^{name} = ([({{].*?[)}}])$", text, re.MULTILINE | re.DOTALL)[1]) for name in ("ACTS", "KINDS", "VERDICTS")}
    for what, names in (("ACTS", ACTS), ("KINDS", KINDS), ("VERDICTS", VERDICTS)):
        found = python[what] if isinstance(python[what], dict) else {word: place for place, word in enumerate(python[what]) if word in names}
        yield f"{what} of a list", {word: header.get(name) for word, name in names.items()}, {"python": found}
    rust = dict(re.findall(r"^const (\w+): u\d+ = (\d+);", read("rust/src/step.rs"), re.MULTILINE))
    yield "numbers of a step", {word: header.get(name) for word, name in STEPS.items()}, {"rust": {word: int(rust[word]) for word in STEPS}}


def structs():
    for name, (own, path) in STRUCTS.items():
        image = {"HostStep": "StepImage", "FormatNumbers": "FormatImage", "KnownCell": "CellImage", "KnownCells": "KnownImage"}.get(own, own)
        text = without_comments(read("crates", path)).replace("OUTPUTS", "8")
        layers = {"pmhost.h": fields_of_c(name), "python": fields_of_python(image), "rust": fields_of_rust(RUST, image)}
        plain = {layer: [(field, kind_of(kind), count) for field, kind, count in found] for layer, found in layers.items()}
        yield f"struct {name}", [(field, kind_of(kind), count) for field, kind, count in fields_of_rust(text, own)], plain


def main():
    no_words(__doc__)
    tally = Tally()
    for what, types, layers in [*versions(), *calls(), *refusals(), *letters(), *sizes(), *lists(), *structs()]:
        if not types:
            layers = {"crates": None}
        for layer, found in layers.items():
            tally.tell(what, [] if found == types else [f"{layer} has {found}, and the types {types}"])
    return tally.end()


if __name__ == "__main__":
    sys.exit(main())
