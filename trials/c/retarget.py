#!/usr/bin/env python3
"""Rewrites the library's LLVM module, made for x86-64, for another processor.

    trials/c/retarget.py --like FILE [--pointer 4|8] MODULE OUT

MODULE and OUT are the module as text. FILE is any module for the processor, as text: its layout and triple are taken.
Sizes and places in memory were settled when the module was made: a pointer has 8 bytes, and usize is i64. With
--pointer 4 (8 if left out) a pointer takes the first 4 of its 8 bytes, and usize stays i64. Then

    a load of a struct becomes a load of each member, at the place that it has with pointers of 8 bytes
    a local of a pointer keeps its 8 bytes
    ptrtoaddr becomes ptrtoint, which widens with zeros
    a division of i128 by what isn't a constant becomes a call of one function for each of the four kinds

With either width the processor's name goes out of the attributes, and each export of 8 or 16 bits widens its result
with zeros. Any line, type, attribute, global or call that isn't listed here is refused: then one line says which, and
nothing is written. No proof covers what this does: trials/c/targets.sh tests it.
"""
import argparse
import re
import sys

NAME = r'%(?:[\w.]+|"[^"]*")'
GLOBAL = r'@(?:[\w.$]+|"[^"]*")'
INT = r"i(?:1|8|16|32|64|128|256)"
TYPE = rf"(?:{INT}|ptr)"
STRUCT = rf"\{{ {TYPE}(?:, {TYPE})* \}}"
ANY = rf"(?:{TYPE}|{STRUCT})"
VALUE = rf"(?:{NAME}|{GLOBAL}|-?\d+|true|false|null|poison|undef)"
META = r"(?:, !(?:range|noundef|nonnull|align|tbaa|noalias|alias\.scope|prof|annotation)? ?!\d+)*"
MARK = r"(?:noundef|zeroext|signext|noalias|nonnull|readonly|readnone|writeonly|nocapture|captures\(none\)|immarg|returned|align \d+|dereferenceable\(\d+\)|range\([^()]*\))"
OPERATION = r"(?:add|sub|mul|shl|lshr|ashr|and|or|xor|udiv|sdiv|urem|srem)"
FLAGS = r"(?:(?:nuw|nsw|exact|disjoint|nneg|inbounds|samesign) )*"
# What stands in a function and is right for pointers of either width, as it is.
PLAIN = [re.compile(rf"(?:{it}){META}$") for it in (
    rf"{NAME} = alloca (?:{INT}|\[\d+ x i8\]), align \d+",
    rf"{NAME} = load {TYPE}, ptr (?:{NAME}|{GLOBAL}), align \d+",
    rf"store {TYPE} {VALUE}, ptr (?:{NAME}|{GLOBAL}), align \d+",
    rf"{NAME} = getelementptr {FLAGS}i8, ptr (?:{NAME}|{GLOBAL}), i64 (?:{NAME}|-?\d+)",
    rf"{NAME} = {OPERATION} {FLAGS}{INT} {VALUE}, {VALUE}",
    rf"{NAME} = icmp {FLAGS}(?:eq|ne|u[gl][te]|s[gl][te]) {TYPE} {VALUE}, {VALUE}",
    rf"{NAME} = (?:zext|sext|trunc) {FLAGS}{INT} {VALUE} to {INT}",
    rf"{NAME} = select i1 {VALUE}, {TYPE} {VALUE}, {TYPE} {VALUE}",
    rf"{NAME} = phi {TYPE} \[ {VALUE}, {NAME} \](?:, \[ {VALUE}, {NAME} \])*",
    rf"{NAME} = freeze {TYPE} {VALUE}",
    rf"{NAME} = extractvalue {STRUCT} {NAME}, \d+",
    rf"{NAME} = insertvalue {STRUCT} (?:{NAME}|poison|undef), {TYPE} {VALUE}, \d+",
    rf"br label {NAME}",
    rf"br i1 {VALUE}, label {NAME}, label {NAME}",
    rf"switch {INT} {VALUE}, label {NAME} \[",
    rf"{INT} -?\d+, label {NAME}",
    r"\]",
    r"ret void",
    rf"ret {ANY} {VALUE}",
    r"unreachable",
)]
CALL = re.compile(rf"(?:{NAME} = )?(?:tail )?call (?:{MARK} )*(?:void|{ANY}) (?P<callee>{GLOBAL})\((?P<given>.*)\)(?: #\d+)?{META}$")
GIVEN = re.compile(rf"{TYPE}(?: {MARK})* {VALUE}$")
STRUCT_LOAD = re.compile(rf"(?P<name>{NAME}) = load (?P<struct>{STRUCT}), ptr (?P<at>{NAME}), align (?P<align>\d+)(?P<meta>{META})$")
POINTER_LOCAL = re.compile(rf"({NAME} = alloca) ptr, align 8$")
ADDRESS = re.compile(rf"({NAME} =) ptrtoaddr ptr ({NAME}) to i64$")
DIVISION = re.compile(rf"(?P<name>{NAME}) = (?P<kind>[us](?:div|rem)) (?:exact )?i128 (?P<left>{VALUE}), (?P<right>{NAME})$")
LABEL = re.compile(r'(?:[\w.]+|"[^"]*"):(?:\s*; (?:preds = .*|No predecessors!))?$')
STATIC = re.compile(rf'{GLOBAL} = (?:private|internal) (?:unnamed_addr )?constant \[\d+ x i8\] (?:c"[^"]*"|zeroinitializer), align \d+$')
DEFINE = re.compile(rf"define (?P<where>(?:internal |private |dso_local |hidden )*)(?P<marks>(?:{MARK} )*)(?P<result>void|{ANY}) (?P<name>{GLOBAL})"
                    rf"\((?P<taken>.*)\)(?: unnamed_addr| local_unnamed_addr)?(?: #\d+)? \{{$")
TAKEN = re.compile(rf"(?P<type>{TYPE})(?: {MARK})* {NAME}$")
INTRINSIC = re.compile(r"@llvm\.(?:memset\.p0|memmove\.p0\.p0|memcpy\.p0\.p0|lifetime\.(?:start|end)\.p0|assume|trap|c[lt][tl]z|ctpop|umin|umax|smin|smax|abs|fsh[lr]|bswap"
                       r"|[us](?:add|sub|mul)\.with\.overflow|expect)(?:\.i\d+)?$")
ATTRIBUTES = re.compile(r"attributes #\d+ = \{ (?P<all>.*) \}$")
KEPT = re.compile(r"(?:nounwind|norecurse|willreturn|nocallback|nofree|nosync|speculatable|nobuiltin|noinline|inlinehint|alwaysinline|cold|noreturn|mustprogress|uwtable|nocreateundeforpoison"
                  r"|memory\([\w:, ]*\))$")
OF_PROCESSOR = re.compile(r'"(?:target-cpu|target-features|tune-cpu|frame-pointer|probe-stack|stack-probe-size)"="[^"]*"$')
SIZES = {"i8": 1, "i16": 2, "i32": 4, "i64": 8, "i128": 16, "ptr": 8}
DIVIDE = """
define internal i128 @retarget.{kind}(i128 %left, i128 %right) noinline nounwind {{
  %result = {kind} i128 %left, %right
  ret i128 %result
}}
"""


class Refused(Exception):
    """A line that this script doesn't know."""


def members(struct):
    """The members of a struct with their places, as the module's memory has them."""
    place = 0
    for kind in struct[2:-2].split(", "):
        if kind not in SIZES:
            raise Refused("a struct's member of no known size")
        place = -(-place // SIZES[kind]) * SIZES[kind]
        yield kind, place
        place += SIZES[kind]


def load_struct(found):
    """A load of each member of a struct, and the struct made of them."""
    name, struct, at, align = (found[it] for it in ("name", "struct", "at", "align"))
    base, lines, made = name[1:].strip('"'), [], "poison"
    for number, (kind, place) in enumerate(members(struct)):
        place_name, member, whole = (f'%"{base}.{it}{number}"' for it in ("place", "member", "with"))
        alignment = min(int(align), place & -place) if place else int(align)
        lines.append(f"{place_name} = getelementptr i8, ptr {at}, i64 {place}")
        lines.append(f"{member} = load {kind}, ptr {place_name}, align {alignment}")
        lines.append(f"{whole} = insertvalue {struct} {made}, {kind} {member}, {number}")
        made = whole
    last = len(lines) - 1
    return [it.replace(f"{made} =", f"{name} =", 1) if at_line == last else it for at_line, it in enumerate(lines)]


def is_call(line):
    """Whether it is a call of a function by its name, with plain arguments."""
    found = CALL.match(line)
    if not found:
        return False
    callee = found["callee"]
    if callee.startswith("@llvm.") and not INTRINSIC.match(callee):
        raise Refused("a call of an intrinsic that isn't known")
    parts = re.split(r", (?![^()]*\))", found["given"]) if found["given"] else []
    if not all(GIVEN.match(it) for it in parts):
        raise Refused("an argument that isn't known")
    return True


class Module:
    """The text of a module, taken line by line."""

    def __init__(self, like, pointer):
        self.like, self.narrow = like, pointer == 4
        self.divisions, self.inside = set(), False

    def statement(self, line):
        """The lines that stand for one line of a function."""
        if any(it.match(line) for it in PLAIN):
            divided = DIVISION.match(line)
            if not (self.narrow and divided):
                return [line]
            self.divisions.add(divided["kind"])
            return [f'{divided["name"]} = call i128 @retarget.{divided["kind"]}(i128 {divided["left"]}, i128 {divided["right"]})']
        if is_call(line):
            return [line]
        found = STRUCT_LOAD.match(line)
        if found:
            return load_struct(found) if self.narrow else [line]
        found = POINTER_LOCAL.match(line)
        if found:
            return [f"{found[1]} [8 x i8], align 8" if self.narrow else line]
        found = ADDRESS.match(line)
        if found:
            return [f"{found[1]} ptrtoint ptr {found[2]} to i64"] if self.narrow else [line]
        raise Refused("a line that isn't known")

    def head(self, line):
        """The first line of a function; an export widens its result."""
        found = DEFINE.match(line)
        if not found:
            raise Refused("a function whose head isn't known")
        taken = [TAKEN.match(it) for it in re.split(r", (?![^()]*\))", found["taken"])] if found["taken"] else []
        if not all(taken):
            raise Refused("a parameter that isn't known")
        self.inside = True
        if "internal" in found["where"] or "private" in found["where"]:
            return line
        if found["result"] not in ("void", "i8", "i16", "i32", "i64") or any(it["type"] not in ("i8", "i16", "i32", "i64", "ptr") for it in taken):
            raise Refused("an export with a type that C callers of other processors pass otherwise")
        if found["result"] in ("i8", "i16") and "zeroext" not in found["marks"]:
            at = found.start("result")
            return line[:at] + "zeroext " + line[at:]
        return line

    def attributes(self, line):
        found = ATTRIBUTES.match(line)
        kept = []
        for each in re.findall(r'"[^"]*"="[^"]*"|"[^"]*"|[\w-]+\([^)]*\)|\S+', found["all"]) if found else [""]:
            if KEPT.match(each):
                kept.append(each)
            elif not OF_PROCESSOR.match(each):
                raise Refused("an attribute that isn't known")
        return line[:line.index("{")] + "{ " + " ".join(kept) + " }"

    def outside(self, line):
        """A line between functions."""
        if line.startswith("define "):
            return self.head(line)
        if line.startswith("attributes "):
            return self.attributes(line)
        if line.startswith("target datalayout"):
            if '"e-' not in line or "i64:64" not in line:
                raise Refused("a layout that isn't x86-64's")
            return self.like["datalayout"]
        if line.startswith("target triple"):
            if '"x86_64-' not in line:
                raise Refused("a module that isn't for x86-64")
            return self.like["triple"]
        if line.startswith("@") and not STATIC.match(line):
            raise Refused("a static that isn't constant bytes")
        if line.startswith("declare ") and not any(INTRINSIC.match(it) for it in re.findall(GLOBAL, line)):
            raise Refused("a function that the library doesn't have")
        if line.startswith(("@", "declare ", "source_filename", ";", "!")) or not line:
            return line
        raise Refused("a line that isn't known")

    def line(self, line):
        if not self.inside:
            return [self.outside(line)]
        if line == "}":
            self.inside = False
            return [line]
        if not line or line.startswith(";") or LABEL.match(line):
            return [line]
        if not line.startswith("  "):
            raise Refused("a line that isn't known")
        indent = line[:len(line) - len(line.lstrip())]
        return [indent + it for it in self.statement(line.strip())]


def rewritten(text, like, pointer):
    """The module for another processor."""
    module, out = Module(like, pointer), []
    for number, line in enumerate(text.splitlines(), 1):
        try:
            out += module.line(line.rstrip())
        except Refused as why:
            raise Refused(f"line {number}: {why}: {line.strip()[:120]}") from None
    if "target datalayout" not in text or "target triple" not in text:
        raise Refused("no layout or no triple")
    return "\n".join(out) + "\n" + "".join(DIVIDE.format(kind=it) for it in sorted(module.divisions))


def processor(text):
    """The layout and the triple of a module; its bytes have to go low one first."""
    found = {it: re.search(rf'^target {it} = ".*"$', text, re.M) for it in ("datalayout", "triple")}
    if not all(found.values()):
        raise Refused("the module that is to be like has no layout or no triple")
    if '"e-' not in found["datalayout"][0]:
        raise Refused("the processor has the high byte first")
    return {it: line[0] for it, line in found.items()}


def main():
    parser = argparse.ArgumentParser(description=__doc__, formatter_class=argparse.RawDescriptionHelpFormatter)
    parser.add_argument("--like", required=True, metavar="FILE")
    parser.add_argument("--pointer", type=int, choices=(4, 8), default=8)
    parser.add_argument("module")
    parser.add_argument("out")
    asked = parser.parse_args()
    try:
        like = processor(open(asked.like, encoding="utf-8").read())
        text = rewritten(open(asked.module, encoding="utf-8").read(), like, asked.pointer)
        with open(asked.out, "w", encoding="utf-8") as file:
            file.write(text)
    except (Refused, OSError, UnicodeDecodeError) as why:
        sys.exit(f"retarget.py: {asked.module}: {why}")


if __name__ == "__main__":
    main()
