"""The pages, the help, the messages and the doc comments as text: their words, their sentences, and the words of docs/style.md that they use in
another sense than is allowed."""
import ast
import os
import re

from program import ROOT, kept_files

STYLE = "docs/style.md"
# What all pages together may have, and what a page may: words a sentence on average, and words of its longest one.
MOST_WORDS, AVERAGE, LONGEST = 44000, 20, 35
PLAINEST = {"README.md": 15, "docs/proved.md": 15}
# Pages that are counted here and judged elsewhere: the manual page is made of the command's help, and README has an editor of its own.
NOT_JUDGED = ("docs/pmhost.1", "README.md")
# A sentence ends so where a further one begins; "e.g." and the like are no words of these pages.
END = re.compile(r"(?<=[.?!])[\"')*]*\s+(?=[A-Z`0-9\"('*\[]|[a-z-]+\.md\b)")
# A macro of mdoc in a line of them.
MACRO = re.compile(r"(?:^\.|\b)(?:Fl|Ar|Cm|Ns|Op|Sq|Ql|Pa|Xr|Nm|Pq|Oo|Oc|No|Li)\b(?: Fl\b)? ?")
# Headers are read too, but not counted: their comments are pages for who writes C.
HEADERS = ("crates/pm_host_c/include/pmhost.h", "crates/pm_host_c/include/pmhost_patient.h", "crates/pm_device_c/include/pmpart.h")
# What has doc comments that are judged: the packages, and the crates of which a user reads them.
PYTHON, RUST = "python/src/pmhost/", ("rust/src/", *(f"crates/pm_{it}/src/" for it in ("host", "limits", "rail", "course", "delivery", "device")))
DOC = re.compile(r"^\s*//[/!] ?(.*)$")


def pages():
    """Every page of the tree but those of tests' data: what ends in .md, and the manual pages."""
    return [it for it in kept_files() if it.endswith((".md", ".1")) and "/tests/data/" not in it and os.path.isfile(os.path.join(ROOT, it))]


def text_of(name):
    with open(os.path.join(ROOT, name), encoding="utf-8") as file:
        return file.read()


def words_of(name):
    """How many words a page has, as `wc -w` counts them."""
    return len(text_of(name).split())


def prose_of(name):
    """A page's paragraphs, items and cells, each with whether it is a cell of a table: without code, headings, the places of
    links, and sources as `(pmbus.h:410)`. A piece of code in a sentence is one word."""
    text = text_of(name)
    return manual_prose(text) if name.endswith(".1") else header_prose(text) if name.endswith(".h") else page_prose(text)


def page_prose(text):
    text = re.sub(r"^```.*?^```$", "", text, flags=re.M | re.S)
    text = re.sub(r"\n\n(?: {4}[^\n]*\n)+", "\n\n", text)
    text = re.sub(r"\s\([a-z0-9_-]+\.(?:c|h|rst):[0-9][^()]*\)", "", text)
    text = re.sub(r"!?\[([^\]]*)\]\([^)]*\)", r"\1", re.sub(r"`[^`]+`", "`x`", text))
    for block in re.split(r"\n\s*\n", text):
        lines = block.strip("\n").split("\n")
        if lines[0].startswith("|"):
            rows = [line.strip("| ").split(" | ") for line in lines if not re.match(r"\|[-| ]+\|?$", line)]
            yield from ((cell.strip(), True) for row in rows for cell in row)
        else:
            kept = "\n".join(line for line in lines if not line.startswith("#"))
            yield from ((item, False) for item in re.split(r"^(?:> ?)?\s*(?:[-*]|[0-9]+\.) +", kept, flags=re.M) if item.strip())


def manual_prose(text):
    """The sentences of a manual page in mdoc: a line that begins with a macro which breaks ends one. The synopsis has none."""
    text = re.sub(r"^\.Sh SYNOPSIS\n.*?(?=^\.Sh)|^\.Bd.*?^\.Ed$", ".Pp\n", text, flags=re.M | re.S)
    for part in re.split(r"^\.(?:Pp|It|Sh|Ss|Bl|El|Nd|Dd|Dt|Os)\b.*$", text, flags=re.M):
        yield " ".join(MACRO.sub("", line) if line.startswith(".") else line for line in part.split("\n")), False


def header_prose(text):
    """The comments of a header for C."""
    for comment in re.findall(r"/\*(.*?)\*/", text, re.S):
        for part in re.split(r"\n\s*\*?\s*\n", re.sub(r"^\s*\* ?", "", comment, flags=re.M)):
            yield re.sub(r"`[^`]+`", "`x`", part), False


def sentences_of(name):
    """The sentences of a page: (words, whether it stands in a table, the sentence)."""
    for piece, is_cell in prose_of(name):
        for sentence in END.split(" ".join(piece.split())):
            count = len(re.findall(r"\w[\w'’-]*|`x`", sentence))
            if count:
                yield count, is_cell, sentence


def measure(name):
    """Words a sentence of a page outside its tables, and the longest sentence with its words, those of tables too."""
    found = list(sentences_of(name))
    plain = [count for count, is_cell, _ in found if not is_cell and count > 1]
    longest = max(found, default=(0, False, ""))
    return sum(plain) / len(plain) if plain else 0, longest[0], longest[2]


def table_below(text, heading):
    """The first cells of the table below a heading of the style page, without its two lines of heads."""
    part = text.partition(f"\n## {heading}\n")[2].partition("\n## ")[0]
    rows = [line for line in part.split("\n") if line.startswith("|")][2:]
    return [row.strip("| ").split(" | ")[0].strip() for row in rows]


def word_list():
    """The words that aren't used, and the uses that are allowed, as docs/style.md has them."""
    text = text_of(STYLE)
    words = [word for cell in table_below(text, "Words") for word in cell.split(", ")]
    part = text.partition("\n## Allowed uses\n")[2].partition("\n## ")[0]
    uses = [line[2:] for line in part.split("\n") if line.startswith("- ")]
    return words, [use for line in uses for use in line.split("; ")]


def misused(name):
    """The words of the list that a page uses otherwise than is allowed: (word, the text around it)."""
    patterns = word_patterns()
    for piece, _ in prose_of(name) if name != STYLE else ():
        yield from misused_in(piece, *patterns)


def word_patterns():
    """What finds the words of the list, and what finds their allowed uses."""
    words, uses = word_list()
    return (re.compile(r"\b(?:%s)\b" % "|".join(re.escape(it) for it in words), re.I),
            re.compile("|".join(r"\b%s\b" % re.escape(it) for it in sorted(uses, key=len, reverse=True)), re.I))


def misused_in(piece, listed, allowed):
    """The same of a text."""
    text = " ".join(piece.split())
    free = [it.span() for it in allowed.finditer(text)]
    for found in listed.finditer(text):
        if not any(start <= found.start() and found.end() <= end for start, end in free):
            yield found.group().lower(), text[max(0, found.start() - 40):found.end() + 30]


def python_texts(text):
    """The doc comments of a Python source, and its strings of several words, which are help and messages: (line, text, whether it is one of
    these). What a string takes in is one word."""
    tree, docs, inside = ast.parse(text), set(), set()
    for node in ast.walk(tree):
        if isinstance(node, (ast.Module, ast.ClassDef, ast.FunctionDef)) and ast.get_docstring(node, False) is not None:
            docs.add(node.body[0].value)
        if isinstance(node, ast.JoinedStr):
            inside.update(node.values)
    for node in ast.walk(tree):
        said = None
        if isinstance(node, ast.JoinedStr):
            said = "".join(str(it.value) if isinstance(it, ast.Constant) else "x" for it in node.values)
        elif isinstance(node, ast.Constant) and isinstance(node.value, str) and node not in inside:
            said = node.value
        if said is not None and " " in said:
            yield node.lineno, re.sub(r"`[^`]*`", "`x`", said), node not in docs


def doc_comments(text):
    """The doc comments of a Rust or Rattle source, without their examples: (line, text, False)."""
    block, first, is_code = [], 0, False
    for number, line in enumerate([*text.split("\n"), ""], 1):
        found = DOC.match(line)
        if found and "```" in found[1]:
            is_code = not is_code
        elif found and not is_code:
            first = first or number
            block.append(found[1])
        elif not found:
            if block:
                yield first, re.sub(r"\]\([^)]*\)", "]", re.sub(r"`[^`]*`", "`x`", "\n".join(block))), False
            block, first, is_code = [], 0, False


def source_texts():
    """Help, messages and doc comments: (file, line, text, whether it is help or a message)."""
    for name in kept_files():
        is_python = name.startswith(PYTHON) and name.endswith(".py")
        if is_python or name.startswith(RUST) and name.endswith((".rs", ".rt")) and "/tests" not in name:
            for line, text, is_said in (python_texts if is_python else doc_comments)(text_of(name)):
                yield name, line, text, is_said


def longest_of(text):
    """The longest sentence of a text, and its words. Each paragraph, item and line that stands further in is a text of its own, and a line
    that a command prints is none."""
    pieces = re.split(r"\n\s*\n|\n(?=\s*(?:[-*|] ?| {2,}\S))", re.sub(r"^[a-z]+(?: [0-9-])?: .*$", "", text, flags=re.M))
    sentences = [it for piece in pieces for it in END.split(" ".join(piece.split()))]
    return max(((len(re.findall(r"\w[\w'’-]*|`x`", it)), it) for it in sentences), default=(0, ""))


def findings():
    """What the style page refuses, in the form of tools/check_sources.py: words of its list, and sentences that are too long."""
    patterns = word_patterns()
    for name, line, text, is_said in source_texts():
        yield from ((name, line, "words", f"{word}: .. {around} ..") for word, around in misused_in(text, *patterns))
        count, sentence = longest_of(text)
        if is_said and count > LONGEST:
            yield name, line, "sentence", f"{count} words: {sentence}"
    for name in HEADERS:
        yield from ((name, 1, "words", f"{word}: .. {around} ..") for word, around in misused(name))
    for name in (it for it in pages() if it not in NOT_JUDGED):
        yield from ((name, 1, "words", f"{word}: .. {around} ..") for word, around in misused(name))
        average, longest, sentence = measure(name)
        if average > PLAINEST.get(name, AVERAGE):
            yield name, 1, "sentence", f"{average:.1f} words a sentence"
        if longest > LONGEST:
            yield name, 1, "sentence", f"{longest} words: {sentence}"
