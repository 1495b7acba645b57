#!/usr/bin/env python3
"""Spells the repository's own definitions and lemmas as today's Rattle does: words in snake case.

usage: python3 tools/spell.py          at the top, once, after the kit's port.py
       python3 tools/spell.py --list   prints the names that it turns, and those that would fall together

It turns names that a file of specs/ or a file right in proofs/ declares: a capital inside a name and a dash
between its words become an underscore. Types, modules, names that begin with a capital or have a symbol beside
the dash, functions of src/ and what Rattle generates keep their names. In comments it turns names in backquotes.
"""

import os
import re
import sys

STOP = r"\s(){}\[\].,;\"⟨⟩◌`«»"
TOKEN = re.compile(rf"[^{STOP}]+")
MARKS = r"(?:(?:pattern|unfoldable|abbrev|pub|private)\s+)*"
DECLARED = re.compile(rf"^\s*{MARKS}([^{STOP}:=|λ]+(?: [^{STOP}:=|λ]+)*?)(?: \{{[^}}]*\}})?\s*:(?=\s|$)")
HEAD = re.compile(rf"^\s*{MARKS}(?:record|data|ruleset|module)\s+([^{STOP}:=|λ]+)")
CLAUSE = re.compile(r"\b(?:requires|ensures|ghost)\b")
# names that would fall together with another of the repository: what they become
OTHERWISE = {
    "inField": "is_in_field",
    "lowX": "low_x_of",
    "highX": "high_x_of",
    "lowY": "low_y_of",
    "highY": "high_y_of",
    "alongYBy": "along_y_by",
    "unitsOf": "stream_units",
}
# lemmas that would have a definition's name, spelled with underscores by port.py
LEMMAS = ["any_at", "between_ends", "cut_short", "four_bytes", "two_bytes", "too_far", "none_kept", "on_edge", "past_end"]
DEFINITIONS = ["first_at", "scale_of", "with_sign"]


def files(root):
    for folder, dirs, names in os.walk(os.path.join(root, "crates")):
        dirs[:] = sorted(d for d in dirs if d not in ("out", "must-fail", "data"))
        for name in sorted(names):
            if name.endswith((".rt", ".antt")):
                yield os.path.join(folder, name)


def of_function(path, root):
    """Whether the file is of one function's proof, where Rattle's own names stand too."""
    part = os.path.relpath(path, root).split(os.sep)
    return path.endswith(".antt") and part[2] == "proofs" and len(part) > 4


def spelled(name):
    if name in OTHERWISE:
        return OTHERWISE[name]
    if not re.match(r"^[a-z→]", name):
        return name
    new = re.sub(r"(?<=[a-z0-9])([A-Z])(?=[a-z])", lambda m: "_" + m.group(1).lower(), name)
    new = re.sub(r"(?<=[a-z0-9])([A-Z]+)(?![a-z])", lambda m: "_" + m.group(1).lower(), new)
    new = re.sub(r"(?<=[A-Za-z0-9'\u2115\u2124])-(?=[A-Za-z0-9\u2115\u2124])", "_", new)
    if re.search(r"[A-Z]", new):
        new = re.sub(r"(?<![A-Za-z])[A-Z](?![A-Za-z])", lambda m: m.group(0).lower(), new)
    return new


def declared(root):
    names = set()
    for path in files(root):
        if path.endswith(".rt") or of_function(path, root):
            continue
        for line in open(path, encoding="utf-8"):
            if line.lstrip().startswith(("--", "use ", "pub use ", "mod ", "pub mod ")):
                continue
            m = DECLARED.match(line)
            if m:
                names.update(m.group(1).split())
            m = HEAD.match(line)
            if m:
                names.add(m.group(1))
    turns = {n: spelled(n) for n in sorted(names) if spelled(n) != n}
    definitions = {new for old, new in turns.items() if "-" not in old} | set(DEFINITIONS)
    for old, new in turns.items():
        if "-" in old and new in definitions:
            turns[old] = new + "_lem"
    return turns | {n: n + "_lem" for n in LEMMAS}


def ghost_parts(text):
    """The spans of a source file that are clauses, ghost items or imports of them."""
    for m in CLAUSE.finditer(text):
        line = text.rfind("\n", 0, m.start()) + 1
        if "//" in text[line:m.start()]:
            continue
        if m.group(0) == "ghost" and text.startswith("ghost use", m.start()):
            yield m.start(), text.index(";", m.start())
            continue
        at = text.find("{", m.start())
        if at < 0:
            continue
        depth, i = 0, at
        while i < len(text):
            depth += (text[i] == "{") - (text[i] == "}")
            i += 1
            if depth == 0:
                break
        yield m.start(), i


def own_names(text, names, root):
    """The names to turn in this file: not those that it imports from a library of the kit."""
    ours = set(os.listdir(os.path.join(root, "crates")))
    foreign = set()
    for m in re.finditer(r"^\s*(?:pub |ghost )?use ([^{}\n]*?)\.\{([^}]*)\}", text, re.M):
        path = m.group(1).split(".")
        if not (path[0] == "Rattle" and len(path) > 1 and path[1] in ours):
            foreign.update(n.split()[0] for n in m.group(2).split(",") if n.strip())
    return {old: new for old, new in names.items() if old not in foreign}


def turned(text, names, keep_members=False):
    if re.match(r"\s*(pub |ghost )?use ", text):
        return re.sub(r"\{[^}]*\}", lambda m: spell(m.group(0), names, False), text)
    return spell(text, names, keep_members)


def spell(text, names, keep_members):
    def one(m):
        before = text[m.start() - 1:m.start()]
        if keep_members and before == ".":
            return m.group(0)
        return names.get(m.group(0), m.group(0))
    return TOKEN.sub(one, text)


def quoted(text, names):
    return re.sub(r"`[^`\n]+`", lambda m: turned(m.group(0), names), text)


def turn_antt(text, names, keep_members):
    out = []
    for line in text.split("\n"):
        code, dash, note = line, "", ""
        m = re.search(r"(?:^|\s)--\s", line)
        if line.startswith("--"):
            code, note = "", line
        elif m:
            code, note = line[:m.start()], line[m.start():]
        members = keep_members and not re.match(r"\s*(pub )?use ", code)
        out.append(turned(code, names, members) + quoted(note, names))
    return "\n".join(out)


def turn_rt(text, names):
    at, out = 0, []
    for begin, end in sorted(ghost_parts(text)):
        if begin < at:
            continue
        out += [quoted(text[at:begin], names), turned(text[begin:end], names)]
        at = end
    return "".join(out) + quoted(text[at:], names)


def main(argv):
    root = os.getcwd()
    names = declared(root)
    if argv[:1] == ["--list"]:
        seen = {}
        for path in files(root):
            if not of_function(path, root):
                for token in TOKEN.findall(open(path, encoding="utf-8").read()):
                    seen.setdefault(token, set()).add(os.path.relpath(path, root))
        back = {}
        for old, new in names.items():
            back.setdefault(new, []).append(old)
        for new, olds in sorted(back.items()):
            if len(olds) > 1 or new in seen:
                print("together:", new, "from", " ".join(olds), "; stands in", " ".join(sorted(seen.get(new, ()))[:6]))
        for old, new in names.items():
            print(old, new)
        return 0
    for path in files(root):
        with open(path, encoding="utf-8") as f:
            text = f.read()
        here = own_names(text, names, root)
        new = turn_rt(text, here) if path.endswith(".rt") else turn_antt(text, here, of_function(path, root))
        if new != text:
            with open(path, "w", encoding="utf-8") as f:
                f.write(new)
    return 0


if __name__ == "__main__":
    raise SystemExit(main(sys.argv[1:]))
