"""Whether the sources and the definitions of a copy's crate compile, in seconds: a function is added whose contract
names every definition, and it alone is checked. So each name in src/ and in specs/ is resolved and each type is
checked; the clauses of contracts, lemmas and proofs aren't read."""
import os
import re

from crate_copy import ERROR, read, write

PLACE = re.compile(r"^(?:\./)?(?:src/|specs/(?!\w*Lemmas))\S+:\d+:\d+: error\b")
DEFINED = re.compile(r"^(?:abbrev |unfoldable )?pub (?:record |data )?(?!use\b|mod\b)(\w+)", re.MULTILINE)
ROOT = re.compile(r"^(?:pub )?(?:mod|use) ", re.MULTILINE)
PROBE = """//! A function whose contract names every definition.

ghost use Rattle.std.specs.Prelude.{◌≡◌};
%s

pub fn probe() -> u8
    ensures { result ≡ 0 }
{
    0
}
"""
# How many edits are joined: where one of them doesn't compile, halves are tried.
MOST = 24


def uncompiled(lines):
    """The first line of a check that says that a source or a definition doesn't compile."""
    return next((line for line in lines if PLACE.match(line)), None)


def definitions(home):
    """The modules of the crate's definitions, each with the first name that it defines; lemmas are left out."""
    for top, _, names in sorted(os.walk(os.path.join(home, "specs"))):
        for name in sorted(names):
            path = os.path.join(top, name)
            module = os.path.relpath(path, home).removesuffix(".antt").replace(os.sep, ".")
            found = DEFINED.search(read(path))
            if found and name.endswith(".antt") and not re.match(r"specs\.\w*Lemmas", module):
                yield module, found[1]


def root_of(home):
    """The root file of a crate."""
    return next(it for it in ("src/lib.rt", "src/main.rt") if os.path.exists(os.path.join(home, it)))


def add_probe(copy):
    """Adds the function to a copy's crate."""
    uses, seen = [], {}
    for module, name in definitions(copy.home):
        seen[name] = seen.get(name, 0) + 1
        # (two modules may begin with one name)
        brought = name if seen[name] == 1 else f"{name} as {name}{seen[name]}"
        uses.append("ghost use Rattle.%s.%s.{%s};" % (copy.crate, module, brought))
    uses = "\n".join(uses)
    write(os.path.join(copy.home, "src/compile_probe.rt"), PROBE % uses)
    with_probe(copy, root_of(copy.home), read(os.path.join(copy.home, root_of(copy.home))))


def with_probe(copy, root, text):
    """Writes the root file with the probe's line, before its first item."""
    at = ROOT.search(text)
    at = at.start() if at else len(text)
    write(os.path.join(copy.home, root), text[:at] + "pub mod compile_probe;\n" + text[at:])


def fault_of(copy, edits, texts):
    """What a check of a copy with these edits' texts says doesn't compile; None where all compiles."""
    root = root_of(copy.home)
    plain = {name: text for name, text in texts.items() if name != root}
    kept = copy.write(plain)
    kept_root = read(os.path.join(copy.home, root))
    if root in texts:
        with_probe(copy, root, texts[root])
    lines, _ = copy.check("--only", "" if is_code_alone(texts) else "compile_probe::probe")
    copy.write(kept)
    write(os.path.join(copy.home, root), kept_root)
    if any(line.startswith("only=") for line in lines):
        return uncompiled(lines)
    return next((line for line in lines if ERROR.search(line)), lines[-1])


def places_of(edit, originals):
    """What an edit changes: functions, and files where it changes none; None where it changes a text of its own."""
    if any(originals(name).count(old) != 1 for name, _, old, _ in edit.pieces):
        return None
    functions = {it for it in edit.functions if it}
    return functions | {name for name, *_ in edit.pieces if not any(name == it for it, _ in functions)}


def bundles(edits, originals):
    """The edits in groups that change different functions and files: what compiles alone then does so joined, and two
    groups that change code alone, or definitions too, are kept apart, since code alone is checked in half the time."""
    groups = []
    for edit in edits:
        places, is_code = places_of(edit, originals), is_code_alone(edit.texts)
        for taken, group, is_like in groups:
            if None not in (places, taken) and is_like == is_code and not taken & places and len(group) < MOST:
                taken |= places
                group.append(edit)
                break
        else:
            groups.append((places, [edit], is_code))
    return [group for _, group, _ in groups]


def is_code_alone(texts):
    return all(name.startswith("src/") for name in texts)


def compile_faults(copy, edits, joined):
    """Each edit, with the line that says why it doesn't compile, or None. `joined` gives the texts with several."""
    groups = bundles(edits, lambda name: read_original(copy, name))
    while groups:
        group = groups.pop()
        texts = group[0].texts if len(group) == 1 else joined(group)
        fault = fault_of(copy, group, texts)
        if fault and len(group) > 1:
            half = len(group) // 2
            groups += [group[:half], group[half:]]
        else:
            yield from ((edit, fault) for edit in group)


def read_original(copy, name):
    """The text of a file of the copy as the edits know it, without the probe's line."""
    return read(os.path.join(copy.home, name)).replace("pub mod compile_probe;\n", "")
