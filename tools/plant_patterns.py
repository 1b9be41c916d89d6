"""The one-step changes of a source in Rust or C, by patterns of its lines."""
import re

# The words of each kind of change, a pattern of code, and what stands in its place.
PAIRS = ((" == ", " != "), (" < ", " <= "), (" > ", " >= "), (" && ", " || "), (" + ", " - "), (" += ", " -= "), (" & ", " | "), (" << ", " >> "), (" * ", " / "),
         ("min(", "max("), ("true", "false"), ("is_some(", "is_none("), ("is_ok(", "is_err("), (".any(", ".all("), ("break;", "continue;"), ("++", "--"))
KINDS = [("exchanged", r"\b" * a[0].isalpha() + re.escape(a) + r"\b" * a[-1].isalpha(), b) for pair in PAIRS for a, b in (pair, pair[::-1])]
KINDS += [
    ("bound dropped", " <= ", " < "), ("bound dropped", " >= ", " > "),
    ("not dropped", r"(?<!\w)!(?=[\w(])", ""),
    ("condition turned round", r"\b(if|while) (?!let\b|\()(.+)(?= \{$)", r"\1 !(\2)"),
    ("condition turned round", r"\b(if|while) \((.+)\)(?= \{$|$)", r"\1 (!(\2))"),
    ("operand dropped", r" (?:&&|\|\|) [^&|(){};?]+(?:\([^()]*\)[^&|(){};?]*)?(?=\)|;| &&| \|\|| \{|$)", ""),
    ("operand dropped", r"(?:(?<=if )|(?<=while )|(?<=return )|(?<== )|(?<=&& )|(?<=\|\| )|(?<=\())[^&|(){};?]+(?:\([^()]*\)[^&|(){};?]*)? (?:&&|\|\|) ", ""),
    ("statement dropped", r"^(?!\s+(?:let|return|use|static|const|type|pub|struct|enum|typedef|break|continue)\b)(\s+)"
                          r"[\w.:>*\[\]&!-]+(?: [-+*/|&^]?= .*|\(.*\)\??|\+\+);$", r"\1{}"),
    ("arm dropped", r"^\s+.* => .*,$", ""),
    ("value dropped", r"\bSome\(.*\)$", "None"), ("value dropped", r"\breturn (?!0;).+;", "return 0;"), ("value dropped", r"\breturn 0;", "return 1;"),
    ("refusal ignored", r"^(\s+)([^=]+)\?;$", r"\1let _ = \2;"),
    ("arguments exchanged", r"\((\w+), (\w+)(?=[,)])", r"(\2, \1"),
]
NUMBER = re.compile(r"(?<![\w.\"])(0x[0-9A-Fa-f_]+|\d[\d_]*)(?=(?:[ui](?:8|16|32|64|size))?\b)(?!\.\d)")
LEFT_OUT = re.compile(r"\s*(?:#|use\b|compile_error!|pub use\b|mod\b|pub mod\b|extern\b|\}|\{|static inline\b|pub (?:const )?fn\b|fn\b)")
HEAD = re.compile(r"(?:\bfn \w+[^(]*|^static inline [\w *]+?\b\w+)\((.*?)\)")
COMMENT = re.compile(r"//[^\n]*|/\*.*?\*/|\"(?:\\.|[^\"\\\n])*\"", re.S)


def blank(source):
    """The source with blanks for comments and for what stands in quotes."""
    return COMMENT.sub(lambda it: re.sub(r"[^\n\"]" if it.group()[0] == '"' else r"[^\n]", " ", it.group()), source.partition("#[cfg(test)]\nmod ")[0])


def more(number):
    """The number above one that is written in either form."""
    value = int(number.replace("_", ""), 0 if number.startswith("0x") else 10) + 1
    return f"0x{value:0{len(number) - 2}X}" if number.startswith("0x") else str(value)


def of_line(code, parameters):
    """(words, first place, place behind, new text) of each change of a line without comments."""
    for words, pattern, put in KINDS:
        yield from ((words, *found.span(), found.expand(put)) for found in re.finditer(pattern, code))
    yield from (("constant changed", *found.span(), more(found.group())) for found in NUMBER.finditer(code))
    yield from (("constant changed", found.start(), found.start() + 1, '"x') for found in re.finditer(r"\"[^\"]+\"", code))
    for found in re.finditer(r"(?<![\w.])[a-z_]\w*\b(?![(:!])", code):
        if found.group() in parameters and len(parameters) > 1:
            yield "other name", *found.span(), parameters[(parameters.index(found.group()) + 1) % len(parameters)]


def changes(source):
    """(line, function, words, new source) of each change; nothing is said of functions."""
    start, parameters, found = 0, [], []
    for number, code in enumerate(blank(source).split("\n"), 1):
        whole = source[start:start + len(code)]
        head = HEAD.search(code)
        if head:
            parameters = [re.findall(r"\w+(?=:|$)", it.strip())[0] for it in head[1].split(",") if re.search(r"\w(:|$)", it.strip())]
        if code.strip() and not LEFT_OUT.match(code):
            for words, first, end, put in of_line(code, parameters):
                # (what a pattern takes over may have quotes, which the line without them has blanks for)
                if '"' in code[first:end] and words != "constant changed" and put or put == whole[first:end]:
                    continue
                new = whole[:first] + put + whole[end:]
                found.append((number, "", words, source[:start] + new + source[start + len(code):]))
        start += len(code) + 1
    return found
