#!/usr/bin/env python3
"""Takes items out of Rust source files, with their text unchanged.

usage: extract.py FOLDER LIST OUT

LIST names the items, in sections: a line '[MODULE] FILE', where FILE is a path below FOLDER, and
then one item a line:

    fn NAME | type NAME | const NAME | struct NAME | enum NAME | trait NAME
    impl HEADER                 the whole block
    impl HEADER { NAME .. }     the block with these functions only

'#' starts a comment. For each section the items' text is written to OUT/MODULE.rs, in the order of
LIST, with the attributes and comments that stand above each item.

One change is made to the text, as document 01 asks: its stand-in for hypot replaces the standard
library's. A trait's method cannot take the place of f64's own `hypot`, so each `.hypot(` becomes
`.hypot_standin(`.
"""
import re
import sys
from pathlib import Path


class NotFound(Exception):
    pass


def end_of_string(text, i):
    """The index past the string whose opening quote stands at i."""
    i += 1
    while text[i] != '"':
        i += 2 if text[i] == "\\" else 1
    return i + 1


def end_of_block_comment(text, i):
    """The index past the block comment that starts at i; such comments nest."""
    depth = 0
    while True:
        if text.startswith("/*", i):
            depth, i = depth + 1, i + 2
        elif text.startswith("*/", i):
            depth, i = depth - 1, i + 2
            if depth == 0:
                return i
        else:
            i += 1


RAW = re.compile(r'b?r(#*)"')


def end_of_opaque(text, i):
    """The index past the comment, string or character that starts at i; i where none does."""
    if text.startswith("//", i):
        end = text.find("\n", i)
        return len(text) if end < 0 else end
    if text.startswith("/*", i):
        return end_of_block_comment(text, i)
    in_word = i > 0 and (text[i - 1].isalnum() or text[i - 1] == "_")
    raw = None if in_word else RAW.match(text, i)
    if raw:
        close = '"' + raw.group(1)
        return text.index(close, raw.end()) + len(close)
    if text[i] == '"':
        return end_of_string(text, i)
    if text[i] == "'":
        if text.startswith("\\", i + 1):
            return text.index("'", i + 3) + 1
        if text.startswith("'", i + 2):
            return i + 3
        # otherwise a lifetime
    return i


def code_of(text):
    """The text with a space for each character of a comment, string or character literal."""
    out, i = [], 0
    while i < len(text):
        end = end_of_opaque(text, i)
        if end > i:
            out.append("".join("\n" if c == "\n" else " " for c in text[i:end]))
            i = end
        else:
            out.append(text[i])
            i += 1
    return "".join(out)


def items_of(code, start, end):
    """The items of code[start:end] as pairs of indexes: each ends with its ';' or its '}'."""
    items, depth, begin = [], 0, start
    for i in range(start, end):
        if code[i] in "([{":
            depth += 1
        elif code[i] in ")]}":
            depth -= 1
            # a '}' ends an item, but not where a ';' must still come, as in `use a::{b, c};`
            if depth == 0 and code[i] == "}" and code[i + 1 : end].lstrip()[:1] not in (";", ","):
                items.append((begin, i + 1))
                begin = i + 1
        elif code[i] == ";" and depth == 0:
            items.append((begin, i + 1))
            begin = i + 1
    return items


ATTRIBUTE = re.compile(r"\s*#!?\[")
HEAD = re.compile(
    r"\s*(?:pub\s*(?:\([^)]*\)\s*)?)?"
    r"(?:(?:const|unsafe|async|extern)\s+(?=(?:const|unsafe|async|extern|fn)\b))*"
    r"(fn|type|const|struct|enum|trait)\s+(\w+)"
)
IMPL = re.compile(r"\s*(?:unsafe\s+)?impl\b\s*([^{]*)\{")


def name_of(code, start, end):
    """What an item is called in a list: 'fn NAME', 'impl HEADER'; None for other items."""
    at = start
    while True:
        attribute = ATTRIBUTE.match(code, at, end)
        if not attribute:
            break
        depth, at = 1, attribute.end()
        while depth:
            depth += {"[": 1, "]": -1}.get(code[at], 0)
            at += 1
    head = HEAD.match(code, at, end)
    if head:
        return head.group(1) + " " + head.group(2)
    block = IMPL.match(code, at, end)
    return "impl " + " ".join(block.group(1).split()) if block else None


def find(code, start, end, name):
    found = [item for item in items_of(code, start, end) if name_of(code, *item) == name]
    if len(found) != 1:
        raise NotFound(f"{name}: {len(found)} items have this name")
    return found[0]


def trimmed(text):
    """An item's text without the blank lines and the file's own comments above it."""
    lines = text.split("\n")
    while lines and (not lines[0].strip() or lines[0].startswith("//!")):
        lines.pop(0)
    return "\n".join(lines)


def extract(text, wanted):
    """The text of the item that a line of a list names."""
    code = code_of(text)
    part = re.fullmatch(r"(impl [^{]*?)\s*\{\s*([\w\s]*)\}", wanted)
    if not part:
        start, end = find(code, 0, len(code), wanted)
        return trimmed(text[start:end])
    start, end = find(code, 0, len(code), part.group(1))
    open_brace = code.index("{", start)
    inner = [find(code, open_brace + 1, end - 1, "fn " + name) for name in part.group(2).split()]
    bodies = "\n\n".join(trimmed(text[a:b]) for a, b in inner)
    return part.group(1) + " {\n" + bodies + "\n}"


def with_standins(text):
    """Each `.hypot(` of the code calls the stand-in."""
    code, out, at = code_of(text), [], 0
    for place in re.finditer(r"\.hypot\(", code):
        out += [text[at : place.start()], ".hypot_standin("]
        at = place.end()
    return "".join(out) + text[at:]


def sections_of(lines):
    """The sections of a list: (module, file, [item])."""
    sections = []
    for line in lines:
        line = line.split("#")[0].strip()
        head = re.fullmatch(r"\[(\w+)\]\s+(\S+)", line)
        if head:
            sections.append((head.group(1), head.group(2), []))
        elif line:
            sections[-1][2].append(line)
    return sections


def main(folder, listing, out):
    Path(out).mkdir(parents=True, exist_ok=True)
    for module, file, items in sections_of(Path(listing).read_text().splitlines()):
        text = (Path(folder) / file).read_text()
        parts = [f"// From {file}, text unchanged but for the stand-in of hypot. Made by extract.py."]
        parts += [with_standins(extract(text, item)) for item in items]
        (Path(out) / f"{module}.rs").write_text("\n\n".join(parts) + "\n")


if __name__ == "__main__":
    if len(sys.argv) != 4:
        sys.exit(__doc__)
    try:
        main(*sys.argv[1:])
    except (NotFound, OSError) as e:
        sys.exit(f"extract.py: {e}")
