#!/usr/bin/env python3
"""Turns the must-fail edits of the older Rattle's text (LANDED) to today's spelling.

usage: python3 tools/turn_edits.py            at the top: turns each crates/*/must-fail/*.edit that does not apply
       python3 tools/turn_edits.py --check    says which edits do not apply to today's text, or apply elsewhere

For each pair the line of LANDED's file that holds the old text is set beside today's line (difflib), the old text's
tokens are replaced by the piece of today's line that stands for them, and the new text by the same tokens, changed
as LANDED's new text changed them; a token that no line beside it tells is spelled as tools/spell.py spells it. An
edit that reads wrong after this is mended by hand; an edit that applies is left as it is.
"""

import collections
import difflib
import glob
import os
import re
import subprocess
import sys
import tempfile

sys.path.insert(0, os.path.dirname(os.path.abspath(__file__)))
import spell

LANDED, PORTED = "9769afe", "97dc31e"
TOKEN = re.compile(r"\s+|[(){}\[\],;]|\.[^\s(){}\[\],;.]+|[^\s(){}\[\],;.]+|.")
KIT = {"ltb": "nat_lt", "leb": "nat_le", "_+_": "◌+◌", "_-_": "◌-◌", "_<_": "◌<◌", "_%_": "◌%◌", "_++_": "◌++◌", "_∷_": "◌∷◌"}


def git(*words):
    return subprocess.run(["git", *words], capture_output=True, check=True).stdout.decode()


def pairs_of(text):
    """The pairs of the edit: file, old text, new text."""
    file, pairs = None, []
    for line in text.split("\n"):
        if line.startswith("file: "):
            file = line[6:].strip()
        elif line.startswith("old: "):
            pairs.append([file, line[5:], ""])
        elif line.startswith("new:"):
            pairs[-1][2] = line[4:].removeprefix(" ")
    return pairs


def landed(crate, file):
    return git("show", f"{LANDED}:{crate}/{file}")


def today(crate, file):
    with open(f"{crate}/{file}", encoding="utf-8") as f:
        return f.read()


def plain(line):
    """The line with what the spelling changes left out, to set lines beside one another."""
    return re.sub(r"[_\s.⌜⌝◌-]", "", line).lower()


def beside(old, new):
    """For each line of the old text the line of the new one that stands for it."""
    a, b = [plain(it) for it in old], [plain(it) for it in new]
    to = {}
    for tag, i, j, k, l in difflib.SequenceMatcher(None, a, b, False).get_opcodes():
        if tag == "equal":
            to.update(zip(range(i, j), range(k, l)))
        elif tag == "replace":
            for x in range(i, j):
                ranks = [(difflib.SequenceMatcher(None, a[x], b[y], False).ratio(), -abs((x - i) - (y - k)), y) for y in range(k, l)]
                best = max(ranks)
                if best[0] > 0.5:
                    to[x] = best[2]
    return to


def tokens(text):
    return TOKEN.findall(text)


def span(old, new, begin, end):
    """The span of the new tokens that stands for the old tokens from begin to end, and the single tokens' turns."""
    low = high = None
    turns = {}
    same = difflib.SequenceMatcher(None, [plain(it) or it for it in old], [plain(it) or it for it in new], False)
    for tag, i, j, k, l in same.get_opcodes():
        if j - i == l - k and (tag == "equal" or j - i == 1):
            turns.update((old[i + x], new[k + x]) for x in range(j - i) if old[i + x].strip())
            if i <= begin < j:
                low = k + begin - i
            if i < end <= j:
                high = k + end - i
        else:
            if i <= begin < j:
                low = k
            if i < end <= j:
                high = l
    return low, high, turns


def written(crate):
    """Today's words of the crate and of the others, by what they are without their spelling; the crate's own come last."""
    words = {}
    for path in sorted(glob.glob("crates/*/specs/*.antt")) + sorted(glob.glob(f"{crate}/specs/*.antt")):
        for line in open(path, encoding="utf-8"):
            if not line.lstrip().startswith("--"):
                words.update((plain(it), it) for it in tokens(line) if re.match(r"[a-z]", it))
    return words


def tight(text):
    """The projections and paths of the text as they are written today."""
    text = re.sub(r"Rattle·(\w+)(?:·specs)?\.specs\.", r"Rattle.\1.specs.", text)
    text = re.sub(r"\(([A-Za-z]\w*'*)((?: \.[a-z]\w*)+)\)", lambda m: m.group(1) + m.group(2).replace(" ", ""), text)
    return re.sub(r"(?<=λ )(\w+)\. \1((?: \.[a-z]\w*)+)", lambda m: m.group(1) + ". " + m.group(1) + m.group(2).replace(" ", ""), text)


def turn(edit, names):
    """Today's text of the edit, or None."""
    crate = edit.split("/must-fail/")[0]
    text = git("show", f"{LANDED}:{edit}")
    words = written(crate)
    own = set(words.values())
    out = []
    for file, old, new in pairs_of(text):
        was, now = landed(crate, file), today(crate, file)
        to = beside(was.split("\n"), now.split("\n"))
        at = was.find(old)
        row = was.count("\n", 0, at)
        if at < 0 or row not in to:
            return None
        left = at - (was.rfind("\n", 0, at) + 1)
        first, second = was.split("\n")[row], now.split("\n")[to[row]]
        begin = len(tokens(first[:left]))
        first, second = tokens(first), tokens(second)
        low, high, turns = span(first, second, begin, begin + len(tokens(old)))
        if low is None or high is None:
            return None
        mid = second[low:high]
        known = {**names, **turns}
        here = span(tokens(old), mid, 0, len(tokens(old)))[2]
        done = []
        for it in tokens(new):
            dot = "." if it.startswith(".") and len(it) > 1 else ""
            bare = it[len(dot):]
            one = known.get(bare, bare)
            if one == bare and bare not in own:
                one = KIT.get(bare) or re.match(r"[a-z]", bare) and words.get(plain(bare)) or bare
            done.append(here.get(it) or dot + one)
        out.append((old, new, "".join(mid), tight("".join(done))))
    for old, new, mid, done in out:
        text = text.replace(f"old: {old}\nnew: {new}", f"old: {mid}\nnew: {done}", 1)
    return text


def applies(edit, text):
    """Says why the edit does not apply, or None."""
    crate, now = edit.split("/must-fail/")[0], {}
    for file, old, new in pairs_of(text):
        if file not in now:
            now[file] = today(crate, file)
        if now[file].count(old) != 1:
            return f"{now[file].count(old)} times in {file}: {old}"
        now[file] = now[file].replace(old, new)
    return None


def elsewhere(edit, text):
    """Says which pair stands in another line than LANDED's pair did, or None."""
    crate = edit.split("/must-fail/")[0]
    try:
        first = pairs_of(git("show", f"{LANDED}:{edit}"))
    except subprocess.CalledProcessError:
        return None  # a new edit
    for (file, old, _), (_, mid, _) in zip(first, pairs_of(text)):
        was, now = landed(crate, file), today(crate, file)
        a, b = was.find(old), now.find(mid)
        if a < 0 or b < 0:
            continue
        to = beside(was.split("\n"), now.split("\n"))
        a, b = was.count("\n", 0, a), now.count("\n", 0, b)
        if to.get(a) != b:
            return f"line {a + 1} of LANDED stands in line {to.get(a, -1) + 1}, the edit in line {b + 1}: {mid}"
    return None


def main(argv):
    edits = sorted(glob.glob("crates/*/must-fail/*.edit"))
    if argv[:1] == ["--check"]:
        count = collections.Counter()
        for edit in edits:
            text = open(edit, encoding="utf-8").read()
            why = applies(edit, text)
            other = elsewhere(edit, text)
            if why:
                print(f"{edit}: {why}")
            elif other:
                print(f"{edit}: {other}")
            count[bool(why)] += 1
        print(f"{count[False]} edits apply, {count[True]} do not")
        return 0
    with tempfile.TemporaryDirectory() as folder:
        tar = subprocess.run(["git", "archive", PORTED, "crates"], capture_output=True, check=True).stdout
        subprocess.run(["tar", "-x", "-C", folder], input=tar, check=True)
        names = spell.declared(folder)
    for edit in edits:
        text = open(edit, encoding="utf-8").read()
        if not applies(edit, text):
            continue
        new = turn(edit, names)
        why = applies(edit, new) if new else "no line of today's text stands for LANDED's"
        print(edit, "turned" if not why else why)
        if new:
            with open(edit, "w", encoding="utf-8") as f:
                f.write(new)
    return 0


if __name__ == "__main__":
    raise SystemExit(main(sys.argv[1:]))
