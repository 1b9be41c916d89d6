#!/usr/bin/env python3
"""Plants lines that make a want of memory, or hide one, edits whose text isn't there, lemmas that are proved twice and names
of another crate's proofs, and asks tools/check_sources.py whether it sees them.

    tools/try_sources.py

It prints each form that isn't seen, and each that is right and seen. The last line says how many passed and failed.
"""
import sys

import check_sources
import house
import mutant_file
from program import no_words
from proof_text import lemmas_of
from tally import Tally

# Each is a body, or what stands beside one.
FORMS = [
    "    if x { return Err(TextFault::Memory); }",
    "    return Err(AllocError);",
    "    Err(io::ErrorKind::OutOfMemory)",
    "    Err(Error::new(ErrorKind::OutOfMemory))",
    "        Err(_kind) => Err(io::ErrorKind::OutOfMemory),",
    "    Err(VarError::OutOfMemory)",
    "    Err(io::Error::from(AllocError).kind())",
    "use pm_lines::TextFault as Fault;",
    "use pm_lines::TextFault::Memory;",
    "use pm_lines::TextFault::*;",
    "pub use pm_lines::TextFault::{Memory, Read};",
    "use std::alloc::AllocError as Refused;",
    "type Fault = TextFault;",
    "    Err(<TextFault>::Memory)",
    "    Err(std::alloc::AllocError.into())",
    "    let room: Vec<u8> = Vec::with_capacity(alloc, usize::MAX)?;",
    "    text.reserve(usize::MAX / 2)?;",
    "    Err(AllocFailed { value: () }.into())",
    "        y if bad(y, TextFault::Memory) => 1,",
    "const WANT: TextFault = TextFault::Memory;",
    "    x.ok_or(TextFault::Memory)?;",
    "    matches!(x, 1) && g(TextFault::Memory)",
    "    Err(NumberFault::Text(TextFault::Memory))",
    "    x.unwrap_or(Err(Self::Memory))",
    "    let e = TextFault::Memory; return Err(e);",
    "    let Ok(x) = y.map_err(|_| TextFault::Memory) else {",
    "        TextFault::Read => TextFault::Memory,",
    "        ErrorKind::OutOfMemory => Err(AllocError),",
    "macro_rules! want { () => { TextFault::Memory } }",
    "    if t == \"a // b\" { return Err(TextFault::Memory); }",
    "impl From<ScenarioFault> for TextFault {\n    fn from(f: ScenarioFault) -> TextFault {\n        TextFault::Memory\n    }\n}",
]
# What stands in the sources, and is right.
RIGHT = [
    "use std::alloc::{AllocError, Global};",
    "fn line(alloc: Global, answer: &Answer) -> Result<String, AllocError>",
    ") -> Result<Command<'a>, AllocError>",
    "        ErrorKind::OutOfMemory => refuse_memory(errors),",
    "    ensures { IfErr result (λ fault. fault ≡ TextFault.Memory) }",
    "impl From<AllocError> for TextFault {\n    fn from(_error: AllocError) -> TextFault {\n        TextFault::Memory\n    }\n}",
]


# Edits of a file `a` of two lines, of which the first three are misplaced.
FILES = {"a": "one\ntwo two\n"}
EDITS = ["file: b\nold: one\nnew: 1", "file: a\nold: two\nnew: 2", "file: a\nold: one\nnew: 1\nold: one\nnew: 2",
         "file: a\nold: one\nnew: two three\nold: three\nnew: 3"]


# Lemmas beside `swap`, of which the first two state the same under other names.
SWAP = "swap : (a b : ℕ) → a ≡ b → b ≡ a\nswap a b same = sym same\n"
LEMMAS = ["pub turned : (x y : ℕ) → x ≡ y → y ≡ x\nturned x y e = sym e\n", "t : (b a : ℕ)\n    → b ≡ a → a ≡ b\nt b a e = sym e\n",
          "kept : (a b : ℕ) → a ≡ b → a ≡ b\nkept a b same = same\n"]
# Lines of `pm_text`, of which the first two name the proofs of another crate.
LINES = ["use Rattle.pm_lines.proofs.LineLemmas.{words-nil}", "#[tactic(auto, using(pm_trace::proofs::RunLemmas::told_plain))]",
         "use Rattle.pm_text.proofs.FloorLemmas.{floor-is}"]


def is_twin(text):
    return house.statement(lemmas_of(text)[0]) == house.statement(lemmas_of(SWAP)[0])


def is_foreign(line):
    return bool(house.foreign_proofs("pm_text", line))


def is_misplaced(edit):
    bug, = mutant_file.mutants_in(f"== it\n{edit}")
    return bool([*mutant_file.misplaced(bug, FILES.get)])


def is_seen(form):
    return bool(list(check_sources.memory("x.rt", [check_sources.without_comment(line) for line in form.split("\n")])))


def main():
    no_words(__doc__)
    tally = Tally()
    for finds, wrong, right in ((is_seen, FORMS, RIGHT), (is_misplaced, EDITS[:3], EDITS[3:]), (is_twin, LEMMAS[:2], LEMMAS[2:]),
                                (is_foreign, LINES[:2], LINES[2:])):
        for form in wrong:
            tally.tell(form.strip(), [] if finds(form) else ["not seen"])
        for form in right:
            tally.tell(form.strip(), ["seen, and right"] if finds(form) else [])
    return tally.end()


if __name__ == "__main__":
    sys.exit(main())
