#!/usr/bin/env python3
"""Merges lemma files of a crate by topic.

    tools/merge_lemmas.py CRATE GROUPING [--crates DIR]     GROUPING is a file of lines as below, or - for the standard input
    tools/merge_lemmas.py CRATE --list                      each lemma file with its lines, its imports and the lemma files that it uses

    TARGET: FILE FILE .. -- what is inside

A line makes crates/CRATE/proofs/TARGET.antt of these files of that folder: its first comment is what the line says, then come
the imports of all of them that are used, without those of each other, each name once, then the files, each behind those that
it uses, with its first comment above it. proofs/Lib.antt, all imports in the crate's proofs and `using(..)` in its code follow.
A name that means two things in one target is told apart: a lemma gets its old file as a prefix, and an import is brought in
under a name with its module in front. Nothing is written where targets would use each other in a circle. The checker is the
judge of the result: check the crate after it.
"""
import argparse
import re
import subprocess
import sys
from pathlib import Path

from program import ROOT
from proof_text import MOST, wrapped

# A letter of a name.
LETTER = r"[^\s(){}\[\],;.\"`]"
USE = re.compile(r"((?:unfoldable )?(?:pub )?)use ([^{} ]+?)(?:\.\{([^}]*)\})?(?: as (\S+))?$")
ITEM = re.compile(r" *(?:(?:pattern|unfoldable|abbrev|pub|record|data|ruleset|axiom) )*(" + LETTER + r"+) (?::|=|\(|\{|where)")
SPECS = re.compile(r"(Rattle\.\w+\.specs|Rattle\.std\.proofs)\.")
SIGNED = re.compile(r" *(?:(?:pattern|unfoldable|abbrev|pub|record|data|ruleset|axiom) )*(" + LETTER + r"+) (?::|\(.*:|\{.*:)")
DATA = re.compile(r" *(?:pub )?data ")
CONSTRUCTOR = re.compile(r" *(?:pub )?(" + LETTER + "+) :")
GROUP = re.compile(r"(\w+): ([\w ]+?) -- (.+)")


def last_word(name):
    """`Lives` of `SurveyLives`."""
    return re.findall(r"[A-Z][^A-Z]*", name)[-1]


def snake(name):
    """`HostFault` as `host_fault`."""
    return re.sub(r"(?<=[a-z0-9])(?=[A-Z])", "_", name).lower()


def parts_of(module):
    """The words of a module's path that say what it holds: its crate, and its place there."""
    return [part for part in module.split(".") if part not in ("Rattle", "specs", "proofs", "declared", "TheVariants")]


def prefixed(word, name):
    """`Way` of `Steps` as `StepsWay`, `at` as `steps_at`."""
    return word + name if name[0].isupper() else "%s_%s" % (snake(word), name)


def items_of(module, items):
    """What a list of an import brings in: (name, module, item). An item may stand behind a path from the module on."""
    for path in filter(None, map(str.strip, items.split(","))):
        path, _, own = path.partition(" as ")
        inner, _, item = path.rpartition(".")
        yield own or item, module + "." + inner if inner else module, item


class Origins:
    """Where a name that modules pass on was declared."""

    def __init__(self, crates):
        kit = Path(subprocess.run(["rt", "doc"], capture_output=True, text=True, check=True).stdout.strip()).parent / "rattle"
        self.roots, self.passed = [crates, kit], {}

    def of(self, module, item):
        module = self.real(module)
        passed = self.passed_by(module)
        return self.of(*passed[item]) if item in passed and passed[item] != (module, item) else (module, item)

    def real(self, module):
        """The module itself, where it is one that another library passes on."""
        above, _, name = module.rpartition(".")
        if self.path(module) or not self.path(above + ".Lib"):
            return module
        passed = re.search(r"^pub use (\S+\.%s)$" % name, self.path(above + ".Lib").read_text(), re.M)
        return passed.group(1) if passed else module

    def passed_by(self, module):
        """The names that a module passes on, each with the module and the item there."""
        if module not in self.passed:
            self.passed[module] = {}
            path = self.path(module)
            for line in path.read_text().split("\n") if path else []:
                found = USE.match(line)
                if found and "pub" in found.group(1) and found.group(3):
                    self.passed[module].update({own: (of, item) for own, of, item in items_of(found.group(2), found.group(3))})
        return self.passed[module]

    def is_constructor(self, module, item):
        """Whether an item of a module of the repository is a constructor."""
        path = self.path(module)
        return bool(path) and self.roots[0] in path.parents and item in declared(path.read_text())[1]

    def path(self, module):
        """The file of a module, in the repository or in the kit, or None."""
        library, *parts = module.split(".")
        if library != "Rattle" or len(parts) < 2:
            return None
        places = [root.joinpath(*parts).with_suffix(".antt") for root in self.roots]
        return next((path for path in places if path.exists()), None)


def declared(text):
    """The names that the items of a text declare, and those of them that are constructors."""
    found, constructors, block, data = [], [], 0, None
    for line in code(text).split("\n"):
        indent = len(line) - len(line.lstrip())
        if not line.strip():
            continue
        if indent == 0:
            block = 2 if line.startswith(("module _", "mutual")) else 0
        if data is not None and indent <= data:
            data = None
        inside = data is not None and indent == data + 2
        named = CONSTRUCTOR.match(line) if inside else ITEM.match(line) if indent == block else None
        if named:
            found.append(named.group(1))
            constructors += [named.group(1)] if inside else []
        if indent == block and DATA.match(line):
            data = indent
    return list(dict.fromkeys(found)), constructors


class Source:
    """A file of proofs: its first comment, its imports, its body, and the lines that it had at first. `names` says of each name
    that it imports from where it comes, as (module, item, marks), and `modules` of each module's name which module it is."""

    def __init__(self, path, module):
        self.path, self.module = path, module
        lines = path.read_text().split("\n")
        first = 0
        while lines[first].startswith("--"):
            first += 1
        self.comment, self.lines = lines[:first], set(lines)
        self.names, self.modules = {}, {}
        head = first
        while first < len(lines) and (not lines[first] or USE.match(lines[first])):
            if lines[first]:
                self.take(*USE.match(lines[first]).groups())
            first += 1
        self.head = [line for line in lines[head:first] if line]
        self.body = "\n".join(lines[first:]).strip("\n")
        if re.search(r"^(pub |unfoldable )*(use|mod) ", self.body, re.M):
            sys.exit("%s: an import stands below other lines" % path)

    def take(self, marks, module, items, name):
        if items is None:
            self.modules[name or module.rsplit(".", 1)[-1]] = module
            return
        self.names.update({own: (of, item, marks) for own, of, item in items_of(module, items)})

    def declared(self):
        """The names that its items declare, constructors too."""
        return declared(self.body)[0]

    def constructors(self):
        """The constructors that it declares."""
        return set(declared(self.body)[1])

    def bare(self):
        """The names that the body writes, behind no dot."""
        return set(re.findall(r"(?<!%s)(?<!\.)%s+" % (LETTER, LETTER), code(self.body)))

    def writes(self, name):
        """Whether the body writes a name, an operator by its parts."""
        return name in code(self.body) if name == "[]" else {part for part in name.split("◌") if part} <= self.bare()

    def enters(self, module):
        """Whether the body writes an item behind a module's name."""
        return bool(re.search(r"(?<!%s)(?<!\.)%s\.(?=%s)" % (LETTER, re.escape(module), LETTER), code(self.body)))

    def rename(self, names, constructors):
        """Writes names in another way, all at once, but where they are fields or labels."""
        self.body = renamed(self.body, names, constructors)

    def matches(self, name):
        """Whether a clause or a case has this name in its pattern, behind what it begins with."""
        word = re.compile("(?<!%s)(?<!\\.)%s(?!%s)" % (LETTER, re.escape(name), LETTER))
        for line in code(self.body).split("\n"):
            head = re.match(r" *(?:\| )?(\S+ ?)((?:(?! [:=↦] |[{]| =$).)*) ?(?:=|↦)", line)
            if head and word.search(head.group(2)) or head and "↦" in line and word.search(head.group(1)):
                return True
        return False

    def rename_module(self, old, new):
        """Writes a module's name in another way in front of its items; by no name, they stand alone."""
        self.body = sub_code(self.body, r"(?<!%s)(?<!\.)%s\.(?=%s)" % (LETTER, re.escape(old), LETTER), new + "." if new else "")

    def rename_there(self, module, renamed_items):
        """Writes items in another way behind a module's name."""
        for old, new in renamed_items:
            path = r"(?<!%s)(?<!\.)%s\.%s(?!%s)" % (LETTER, re.escape(module), re.escape(old), LETTER)
            self.body = sub_code(self.body, path, "%s.%s" % (module, new))

    def write(self):
        """Writes the file; a line that a longer name made too long is broken."""
        body = [line if line in self.lines else wrapped(line) for line in self.body.split("\n")]
        lines = self.comment + self.head + [""] + body
        self.path.write_text("\n".join(lines).rstrip("\n") + "\n")


def code(text):
    """The text without its comments."""
    return re.sub(r"(^|(?<=\s))--.*", "", text)


def sub_code(text, pattern, new):
    """re.sub over what is no comment."""
    parts = re.split(r"((?:^|(?<=\s))--.*)", text)
    return "".join(part if n % 2 else re.sub(pattern, lambda _: new, part) for n, part in enumerate(parts))


def chunks(text):
    """The items of a text, each with its clauses; what stands above the first is one too."""
    found, block = [[]], 0
    for line in text.split("\n"):
        indent = len(line) - len(line.lstrip())
        if line and indent == 0 and not line.startswith("--"):
            block = 2 if line.startswith(("module _", "mutual")) else 0
        if line and indent == block and SIGNED.match(line) or line.startswith(("module _", "mutual")):
            found.append([])
        found[-1].append(line)
    return ["\n".join(lines) for lines in found if lines]


def binds(chunk, name):
    """Whether an item takes an argument of this name."""
    word = "(?<!%s)%s(?!%s)" % (LETTER, re.escape(name), LETTER)
    signed = SIGNED.match(chunk)
    clause = signed and r"^ *%s (?:[^=\n]* )?\(*%s[^=\n]* = ?" % (re.escape(signed.group(1)), word)
    return bool(re.search(r"[({](?:[^(){}:]* )?%s(?: [^(){}:]*)? :" % word, chunk) or clause and re.search(clause, chunk, re.M))


def renamed(text, names, constructors):
    """Names written in another way, but behind a dot, but for labels in braces before `=`, and but in items and blocks that take
    an argument of this name, which no constructor is."""
    found, inside = [], set()
    for chunk in chunks(text):
        if not chunk.startswith(" "):
            inside = {old for old in names if chunk.startswith("module _") and binds(chunk, old)}
        bound = {old for old in names if old[0].islower() and old not in constructors and binds(chunk, old)}
        found.append(renamed_in(chunk, {old: new for old, new in names.items() if old not in inside | bound}))
    return "\n".join(found)


def renamed_in(chunk, names):
    if not names:
        return chunk
    words = "|".join(re.escape(old) for old in sorted(names, key=len, reverse=True))
    spelled = re.compile(r"[(){}\[\]]|--(?=\s).*|(?<!%s)(?<!\.)(?:%s)(?!%s)" % (LETTER, words, LETTER))
    open_at = []

    def write(found):
        word = found.group(0)
        if word in "({[":
            open_at.append(word)
        elif word in ")}]":
            if open_at:
                open_at.pop()
        elif word in names and not is_label(chunk, found, open_at):
            return names[word]
        return word
    return spelled.sub(write, chunk)


def is_label(text, found, open_at):
    """Whether a name is that of a field or an argument, in braces before `=`."""
    before = text[:found.start()].rstrip()
    return bool(open_at) and open_at[-1] == "{" and before.endswith(("{", ";")) and text[found.end():].lstrip().startswith("= ")


def imports(names, modules):
    """The lines that import these. Names that come alone from a module of definitions stand in one list for each crate."""
    by_module = {}
    for own, (module, item, marks) in names.items():
        by_module.setdefault((module, marks), []).append(item if own == item else "%s as %s" % (item, own))
    lines, alone = {}, {}
    for own, module in modules.items():
        last = module.rsplit(".", 1)[-1]
        lines.setdefault(module, []).append("use " + module + ("" if own == last else " as " + own))
    for (module, marks), items in by_module.items():
        crate = SPECS.match(module)
        if crate and len(items) == 1 and not marks:
            alone.setdefault(crate.group(1), []).append((module, items[0]))
        else:
            lines.setdefault(module, []).extend(listed("%suse %s.{" % (marks, module), items))
    for crate, items in alone.items():
        paths = sorted("%s.%s" % (module[len(crate) + 1:], item) for module, item in items)
        lines[crate] = listed("use %s.{" % crate, paths) if len(items) > 1 else ["use %s.{%s}" % items[0]]
    return [line for module in sorted(lines, key=place) for line in lines[module]]


def listed(head, items):
    """Lines of a list of names, none too long."""
    found, line = [], head
    for item in items:
        more = line + ("" if line == head else ", ") + item
        if len(more) + 1 > MOST and line != head:
            found.append(line + "}")
            more = head + item
        line = more
    return found + [line + "}"]


def place(module):
    """Where a module's imports stand: std's first, then each crate's by the order of crates.txt, definitions before proofs."""
    parts = module.split(".")
    crate = parts[1] if parts[0] == "Rattle" and len(parts) > 1 else ""
    known = CRATES.index(crate) if crate in CRATES else (-1 if crate != "std" else -2)
    return (known, "proofs" in parts, module)


class Crate:
    """The proofs of a crate: its lemma files, and the other files that import lemmas."""

    def __init__(self, home):
        self.home, self.prefix = home, "Rattle.%s.proofs." % home.name
        self.lib = home / "proofs" / "Lib.antt"
        self.order = re.findall(r"^(?:pub )?mod (\w+)$", self.lib.read_text(), re.M)
        self.lemmas = {name: Source(home / "proofs" / (name + ".antt"), self.prefix + name) for name in self.order}
        own = {source.path for source in self.lemmas.values()} | {self.lib}
        self.others = [Source(path, None) for path in sorted((home / "proofs").rglob("*.antt")) if path not in own]

    def lemma_file(self, module):
        """The lemma file that a module is, or None."""
        name = module[len(self.prefix):] if module.startswith(self.prefix) else None
        return name if name in self.lemmas else None

    def used(self, source):
        """The lemma files that a file uses."""
        modules = [module for module, _, _ in source.names.values()] + list(source.modules.values())
        return [name for name in self.order if self.prefix + name in modules]

    def sorted(self, names):
        """The files, each behind those that it uses, else in the order of Lib.antt."""
        found = []

        def put(name):
            for below in self.used(self.lemmas[name]):
                if below in names and below not in found:
                    put(below)
            if name not in found:
                found.append(name)
        for name in self.order:
            if name in names:
                put(name)
        return found


class Merge:
    """What one grouping makes of a crate: `called` says of each lemma that is renamed, as (file, name), what it is called."""

    def __init__(self, crate, groups):
        self.crate, self.groups, self.origins = crate, groups, Origins(crate.home.parent)
        self.target = {name: target for target, (names, _) in groups.items() for name in names}
        self.called = {}

    def check(self):
        """Says what is wrong with the grouping, and ends then."""
        for name in self.target:
            if name not in self.crate.lemmas:
                sys.exit("no lemma file %s" % name)
        for target, (names, _) in self.groups.items():
            if target in self.crate.lemmas and target not in names:
                sys.exit("%s is a file already" % target)
        uses = {}
        for name, source in self.crate.lemmas.items():
            mine = self.target.get(name, name)
            for below in self.crate.used(source):
                if self.target.get(below, below) != mine:
                    uses.setdefault(mine, {}).setdefault(self.target.get(below, below), []).append("%s uses %s" % (name, below))
        circle = circle_of(uses)
        if circle:
            steps = ["%s -> %s: %s" % (a, b, ", ".join(uses[a][b])) for a, b in zip(circle, circle[1:])]
            sys.exit("targets use each other in a circle:\n  " + "\n  ".join(steps))

    def run(self):
        self.check()
        made = {target: self.made(target, self.crate.sorted(names), says) for target, (names, says) in self.groups.items()}
        left = [source for name, source in self.crate.lemmas.items() if name not in self.target]
        for source in left + self.crate.others + list(made.values()):
            if self.follow(source):
                source.write()
        for target, source in made.items():
            for name in self.groups[target][0]:
                (self.crate.home / "proofs" / (name + ".antt")).unlink()
            source.write()
        self.write_lib()
        for path in sorted((self.crate.home / "src").rglob("*.rt")):
            self.follow_code(path)

    def made(self, target, names, says):
        """The file of a target. What it imports of other lemma files is still called as it was there."""
        files = [self.crate.lemmas[name] for name in names]
        taken, imported, modules = {}, {}, {}
        # For each file, what its names are written as, and which of them are constructors.
        written = {name: {} for name in names}
        constructors = {name: source.constructors() for name, source in zip(names, files)}
        for name, source in zip(names, files):
            for item in source.declared():
                here = (source.module, item)
                if item in taken or item in constructors[name] and self.captures(item, here, source, files):
                    written[name][item] = self.call(name, item, taken)
                taken[self.called.get((name, item), item)] = here
        for name, source in zip(names, files):
            self.bring(name, files, taken, imported, written[name], constructors[name])
        for name, source in zip(names, files):
            source.rename(written[name], constructors[name])
            self.bring_modules(name, names, source, modules)
        merged = {}
        for own, (module, item, marks) in self.left(files, names):
            if own in merged and self.origins.of(*merged[own][:2]) != self.origins.of(module, item):
                sys.exit("%s: %s means two things: %s, %s" % (target, own, merged[own], module))
            merged.setdefault(own, (module, item, marks))
        one = Source(files[0].path, None)
        one.path = self.crate.home / "proofs" / (target + ".antt")
        one.body = "\n\n".join("\n".join(source.comment) + "\n\n" + source.body for source in files)
        one.comment, one.head = ["-- " + says], None
        one.modules = {own: module for own, module in modules.items() if one.enters(own)}
        one.names = {own: origin for own, origin in merged.items() if origin[2] or one.writes(own)}
        one.lines = set().union(*(source.lines for source in files))
        return one

    def left(self, files, names):
        """What the files import but from each other; what is passed on first, so that a plain import of the same is none."""
        found = [(own, origin) for source in files for own, origin in source.names.items() if self.crate.lemma_file(origin[0]) not in names]
        return sorted(found, key=lambda one: not one[1][2])

    def captures(self, name, origin, source, files):
        """Whether another of the files has a constructor's name in a pattern, and doesn't mean it."""
        return any(other.matches(name) and name not in other.declared()
                   and (name not in other.names or self.origins.of(*other.names[name][:2]) != origin)
                   for other in files if other is not source and name[0].islower())

    def call(self, name, item, taken):
        """What a lemma whose name is taken is called: its file is its prefix."""
        new = prefixed(last_word(name), item)
        if new in taken:
            new = prefixed(name, item)
        print("%s.%s is called %s" % (name, item, new))
        if new in taken:
            sys.exit("%s is taken too" % new)
        self.called[(name, item)] = new
        return new

    def called_of(self, name):
        """The lemmas of a file that are renamed, each with its new name."""
        return [(item, new) for (file, item), new in self.called.items() if file == name]

    def bring(self, name, files, taken, imported, written, constructors):
        """What a file imports, as the target's one name for it."""
        source, inside = self.crate.lemmas[name], [file.module for file in files]
        names = {}
        for own, (module, item, marks) in source.names.items():
            file = self.crate.lemma_file(module)
            passed = self.crate.lemmas[file].names.get(item) if module in inside else None
            if passed and passed[2]:
                module, item, marks = passed[0], passed[1], ""
            origin = self.origins.of(module, item)
            is_constructor = own[0].islower() and self.origins.is_constructor(*origin)
            constructors |= {own} if is_constructor else set()
            if module in inside:
                names[own] = (module, item, marks)
                new = self.called.get((self.crate.lemma_file(module), item), item)
                written.update({own: new} if new != own else {})
                continue
            known = [other for other, path in imported.items() if path == (module, item)]
            new = own
            if known and own not in known:
                new = known[0]
            elif not known and (taken.get(own, origin) != origin or is_constructor and self.captures(own, origin, source, files)):
                new = self.name_for(module, own)
            if new != own:
                print("%s: %s of %s is called %s" % (name, own, module, new))
                written[own] = new
            names[new] = (module, item, marks)
            taken.setdefault(new, origin)
            imported.setdefault(new, (module, item))
        source.names = names

    def name_for(self, module, own):
        """A name with its module's in front, or its crate's where the module's says the same."""
        parts = parts_of(module)
        says_it = own.lower().startswith(parts[-1].lower())
        return prefixed(parts[0].split("_")[-1].capitalize() if says_it and len(parts) > 1 else parts[-1], own)

    def bring_modules(self, name, names, source, modules):
        """The modules that a file names, as the target's one name for each."""
        for own, module in source.modules.items():
            file = self.crate.lemma_file(module)
            if file in names:
                source.rename_there(own, self.called_of(file))
                source.rename_module(own, "")
                continue
            known = [other for other, path in modules.items() if path == module]
            if known and known[0] != own or not known and own in modules:
                new = known[0] if known else self.module_name(module, modules)
                print("%s: the module %s, %s, is called %s" % (name, own, module, new))
                source.rename_module(own, new)
                own = new
            modules[own] = module

    def module_name(self, module, modules):
        """A name for a module that isn't taken: its own, with those above it as far as needed."""
        parts = parts_of(module)
        names = [snake("_".join(parts[at:])) for at in range(len(parts) - 1, -1, -1)]
        return next(name for name in names if name not in modules)

    def follow(self, source):
        """Whether a file imported what moves, and follows it."""
        changed = self.follow_names(source) | self.follow_modules(source)
        if source.head is None:
            source.head = imports(source.names, source.modules)
        elif changed:
            source.head = self.followed(source)
        return changed

    def followed(self, source):
        """A file's imports, those of what moves at the first place of each target."""
        found, done = [], set()
        for line in source.head:
            module = USE.match(line).group(2)
            name = self.crate.lemma_file(module)
            if name not in self.target:
                found.append(line)
            elif self.target[name] not in done:
                done.add(self.target[name])
                there = self.crate.prefix + self.target[name]
                found += imports({own: origin for own, origin in source.names.items() if origin[0] == there},
                                 {own: path for own, path in source.modules.items() if path == there})
        return found

    def follow_names(self, source):
        names, written, constructors = {}, {}, set()
        for own, (module, item, marks) in source.names.items():
            name = self.crate.lemma_file(module)
            if name not in self.target:
                names[own] = (module, item, marks)
                continue
            new = self.called.get((name, item), item)
            if own == item != new and new not in source.bare():
                written[own] = new
                constructors |= {own} if new in self.crate.lemmas[name].constructors() else set()
                own = new
            names[own] = (self.crate.prefix + self.target[name], new, marks)
        changed = names != source.names
        source.names = names
        source.rename(written, constructors)
        return changed

    def follow_modules(self, source):
        changed = False
        for own, module in list(source.modules.items()):
            name = self.crate.lemma_file(module)
            if name not in self.target:
                continue
            changed = True
            source.rename_there(own, self.called_of(name))
            there = self.crate.prefix + self.target[name]
            known = [other for other, path in source.modules.items() if path == there]
            if known and known[0] != own:
                source.rename_module(own, known[0])
                del source.modules[own]
            else:
                source.modules[own] = there
        return changed

    def follow_code(self, path):
        """Lets `using(crate::proofs::FILE::lemma)` name what moves."""
        def there(found):
            name, item = found.groups()
            return "crate::proofs::%s::%s" % (self.target.get(name, name), self.called.get((name, item), item))
        text = path.read_text()
        followed = re.sub(r"\bcrate::proofs::(\w+)::(\w+)", there, text)
        if followed != text:
            path.write_text(followed)

    def write_lib(self):
        """Lib.antt with each target where the first of its files stood."""
        done, lines = set(), []
        for line in self.crate.lib.read_text().split("\n"):
            found = re.match(r"((?:pub )?mod )(\w+)$", line)
            target = self.target.get(found.group(2)) if found else None
            if target is None:
                lines.append(line)
            elif target not in done:
                done.add(target)
                lines.append(found.group(1) + target)
        self.crate.lib.write_text("\n".join(lines))


def circle_of(uses):
    """A circle of what uses what, or None."""
    done = set()

    def walk(at, path):
        if at in path:
            return path[path.index(at):] + [at]
        if at in done:
            return None
        for below in uses.get(at, {}):
            found = walk(below, path + [at])
            if found:
                return found
        done.add(at)
        return None
    for start in list(uses):
        found = walk(start, [])
        if found:
            return found
    return None


def read_groups(text):
    """The groups of a grouping: for each target its files, and what is inside."""
    groups = {}
    for line in text.split("\n"):
        if not line.strip():
            continue
        found = GROUP.fullmatch(line.strip())
        if not found:
            sys.exit("not a line TARGET: FILE FILE .. -- what is inside: " + line)
        groups[found.group(1)] = (found.group(2).split(), found.group(3))
    names = [name for those, _ in groups.values() for name in those]
    twice = {name for name in names if names.count(name) > 1}
    if twice:
        sys.exit("in two targets: " + " ".join(sorted(twice)))
    return groups


def tell(crate):
    """Prints the lemma files."""
    for name in crate.order:
        source = crate.lemmas[name]
        lines = source.path.read_text().split("\n")[:-1]
        count = sum(bool(USE.match(line)) for line in lines)
        print("%-18s %4d lines %3d use  %s" % (name, len(lines), count, " ".join(crate.used(source))))


def main():
    words = argparse.ArgumentParser(description=__doc__, formatter_class=argparse.RawDescriptionHelpFormatter)
    words.add_argument("crate")
    words.add_argument("grouping", nargs="?")
    words.add_argument("--list", action="store_true")
    words.add_argument("--crates", default=str(Path(ROOT) / "crates"), help="the folder of the crates")
    given = words.parse_args()
    crate = Crate(Path(given.crates) / given.crate)
    if given.list:
        return tell(crate)
    if given.grouping is None:
        words.error("a grouping is wanted, or --list")
    text = sys.stdin.read() if given.grouping == "-" else Path(given.grouping).read_text()
    return Merge(crate, read_groups(text)).run()


CRATES = re.findall(r"^(\w+)[^#\n]*:", (Path(ROOT) / "crates.txt").read_text(), re.M)

if __name__ == "__main__":
    main()
