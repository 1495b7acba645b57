#!/usr/bin/env python3
"""Writes docs/MAP.md and docs/crates.svg from the sources.

    docs/map.py            writes both
    docs/map.py --check    writes nothing, and fails where they are not what it would write

For every export to C (crate viskunor_c) the map names the definitions that its promise cites and those that they
are made of, the functions that compute it, the proof of each, and the theorems about the definitions; for every test the line of
the definition that says it, the functions that make it, and their proofs. It reads text only: names are followed
through `use` lines.
"""
import collections
import pathlib
import re
import sys

ROOT = pathlib.Path(__file__).resolve().parent.parent
NAME = r"[^\s(){};,.\[\]⌜⌝]+"
DEEP = 5                       # how many steps below a promise definitions are named
CALLS = 4                      # how many calls below an export functions are named: viskunor's own, and three more
GENERAL = {'count_fields', 'measure_fields', 'box_fields', 'distance_fields', 'buffer', 'cell_of', 'distance_of'}
PROOFS = ['Proof.antt', 'Answers.antt', 'Invariants.antt']    # what is written of a function's proof; the first is linked
NUMBERS = ('accept', 'refusals', 'from')      # the function that gives a refusal's number
THEOREM_PAGES = ['README.md', 'docs/DEMAND-1.md', 'docs/DEMAND-2.md']


class Item:
    """A definition, law or function, and where it stands."""

    def __init__(self, crate, path, line, name, kind, head='', body=''):
        self.crate, self.path, self.line, self.name = crate, path, line, name
        self.kind, self.head, self.body = kind, head, body
        self.proof = None      # of a function: its proof's file, if it has one
        self.calls = []
        self.uses = []

    def link(self):
        """A link to it."""
        return f'[`{self.name}`](../{self.path}#L{self.line})'


def crate_lines():
    """crates.txt: crate -> those it lists."""
    deps = {}
    for line in (ROOT / 'crates.txt').read_text().split('\n'):
        name, colon, rest = line.split('#')[0].partition(':')
        if colon:
            deps[name.split()[0]] = rest.split()      # 'staticlib' may follow the name
    return deps


def imports_of(text):
    """name -> the module path that a `use` line brings it from."""
    found = {}
    for path, names in re.findall(r'use (Rattle\.[^\s{};]+?)\.\{([^}]*)\}', text):
        m = re.match(r'Rattle\.(\w+)\.(specs|proofs)\.(.*)$', path)
        if m:
            for name in names.split(','):
                found[name.strip().strip('«»')] = m.groups()
    return found


def read_antt(crate, path):
    """The definitions, types and laws of a file."""
    text = path.read_text(encoding='utf-8')
    lines = [re.sub(r'(?:(?<=\s)|^)--.*', '', l) for l in text.split('\n')]
    items, last = [], None
    for i, line in enumerate(lines):
        m = re.match(r' *((?:(?:unfoldable|abbrev|pub) )+)(record|data) (' + NAME + ')', line)
        m2 = re.match(r' *((?:(?:unfoldable|abbrev|pub) )+)(' + NAME + r') : ', line)
        if m or m2 and m2[2] not in ('use', 'mod', 'module'):
            marks, name = (m[1], m[3]) if m else (m2[1], m2[2].strip('«»'))
            in_record = last and last.kind == 'type' and line.startswith(last.indent + '  ')
            if in_record and not m:
                last.body += '\n' + line
                continue
            kind = 'type' if m else 'def' if re.search('abbrev|unfoldable', marks) else 'law'
            last = Item(crate, path.relative_to(ROOT), i + 1, name, kind, line)
            last.indent = re.match(' *', line)[0]
            items.append(last)
        elif last:
            last.body += '\n' + line
    for item in items:
        rest = re.split(rf'^ *(?:unfolding |{re.escape(item.name)}(?= |$))', item.body, maxsplit=1, flags=re.M)[0]
        item.says = item.head + rest if item.kind == 'law' else ''
    return items, imports_of(text)


def closing(text, at):
    """The place after the bracket that closes the one at a place."""
    depth = 0
    for i in range(at, len(text)):
        depth += (text[i] in '([{') - (text[i] in ')]}')
        if not depth:
            return i + 1
    return len(text)


def read_code(crate, path):
    """The functions of a file of code."""
    text = '\n'.join(re.sub(r'//.*', '', l) for l in path.read_text(encoding='utf-8').split('\n'))
    items = []
    for m in re.finditer(r'^( *)(?:pub )?(extern "C" )?fn (\w+)', text, re.M):
        at, start = closing(text, text.index('(', m.end())), None
        while True:
            at = text.index('{', at)
            clause = re.search(r'\b(requires|ensures)(?: +\w+)?\s*$', text[:at])
            if not clause:
                break
            start = start or clause.start()
            at = closing(text, at)
        end = closing(text, at)
        item = Item(crate, path.relative_to(ROOT), text.count('\n', 0, m.start()) + 1, m[3],
                    'export' if m[2] else 'fn', text[start or at:at], text[at:end])
        owner = re.findall(r'^impl(?:<[^>]*>)? (\w+)', text[:m.start()], re.M) if m[1] else []
        item.owner = owner[-1] if owner else ''
        items.append(item)
    return items, imports_of(text), paths_of(text)


def paths_of(text):
    """name -> the path that a `use` line of code brings it from."""
    found = {}
    for head, group in re.findall(r'^\s*(?:pub )?use ([\w:]+?)(?:::\{([^}]*)\})?;', text, re.M):
        for name in group.split(',') if group else ['']:
            parts = [p for p in (head + '::' + name.strip()).split('::') if p and p != 'self']
            found[parts[-1]] = parts
    return found


class Sources:
    """All crates: definitions, laws and functions, with what each names and calls."""

    def __init__(self):
        self.deps = crate_lines()
        self.table, self.functions, self.methods = {}, {}, {}
        self.laws, files = [], []
        for crate in self.deps:
            for part in ('specs', 'proofs'):
                base = ROOT / 'crates' / crate / part
                for path in sorted(base.rglob('*.antt')):
                    if part == 'proofs' and path.name in PROOFS and path.parent != base:
                        continue
                    items, imports = read_antt(crate, path)
                    module = '.'.join(path.relative_to(base).with_suffix('').parts)
                    for item in items:
                        self.table.setdefault((crate, part, module, item.name), item)
                    self.laws += [i for i in items if i.kind == 'law']
                    files.append((crate, part, module, items, imports))
            base = ROOT / 'crates' / crate / 'src'
            for path in sorted(base.rglob('*.rt')):
                items, imports, paths = read_code(crate, path)
                module = tuple(p for p in path.relative_to(base).with_suffix('').parts if p not in ('lib', 'main'))
                for item in items:
                    self.functions.setdefault((crate,) + module + (item.name,), item)
                    if item.owner:
                        self.methods.setdefault(item.name, []).append(item)
                    own = ROOT / 'crates' / crate / 'proofs'
                    for folder in [own.joinpath(*module), own]:
                        owned = f'*{item.owner}/' if item.owner else ''     # a method's lies in the folder of its type or impl
                        for proof in [p for name in PROOFS for p in sorted(folder.glob(owned + '*/' + name))]:
                            if item.name in proof.parent.name.split('+'):
                                item.proof = item.proof or proof.relative_to(ROOT)
                files.append((crate, 'src', module, items, imports, paths))
        for crate, part, module, items, imports, *paths in files:
            known = {n: self.table.get(w + (n,)) for n, w in imports.items()}
            if part != 'src':
                known.update({k[3]: v for k, v in self.table.items() if k[:3] == (crate, part, module)})
            known.update({n.split('◌')[1]: v for n, v in known.items() if n.startswith('◌')})    # its word between arguments
            for item in items:
                law = part != 'src' and item.kind == 'law'
                words = re.findall(NAME, item.says if law else item.head if part == 'src' else item.head + ' ' + item.body)
                item.uses = list(dict.fromkeys(u for u in map(known.get, words) if u and u is not item))
                if part == 'src':
                    item.calls = self.called(crate, module, item, paths[0])

    def called(self, crate, module, item, paths):
        """The functions that a body calls, in order."""
        found = []
        for call in re.findall(r'(?<![\w.])([A-Za-z_][\w:]*)\(', item.body) + re.findall(r'\.(\w+)\(', item.body):
            parts = call.split('::')
            if parts[0] in paths:
                parts = paths[parts[0]] + parts[1:]
            if parts[0] == 'crate':
                parts = [crate] + parts[1:]
            if re.fullmatch('[A-Z]', parts[0]):
                parts = parts[1:]      # a type parameter's: what its trait asks for
            options = [tuple(parts), (crate,) + tuple(parts), (crate,) + module + tuple(parts)]
            hit = next((self.functions[o] for o in options if o in self.functions), None)
            methods = self.methods.get(call, []) if '.' + call + '(' in item.body else []
            hit = hit or next((m for m in methods if m.crate == crate), methods[0] if methods else None)
            if hit and hit is not item and hit not in found:
                found.append(hit)
        if re.search(r'\bErr\((\w+)\) => .*\bu32::from\(\1\)', item.body):
            found.append(self.functions[NUMBERS])
        return found

    def theorems(self):
        """The laws that the pages name, each with what its statement names."""
        named = set()
        for page in THEOREM_PAGES:
            named |= set(re.findall(r'`([^`\s]+)`', (ROOT / page).read_text(encoding='utf-8')))
        return [l for l in self.laws if l.name in named]


def reached(items, step, depth):
    """What is reached from some items in at most so many steps, nearest first."""
    found, front = [], list(items)
    for _ in range(depth):
        front = [n for i in front for n in step(i) if n not in found]
        front = list(dict.fromkeys(front))
        found += front
    return found


def cited(item):
    """The definitions and types that an item names."""
    return [u for u in item.uses if u.kind in ('def', 'type')]


def proof_of(item):
    """A link to the proof of a function."""
    return f'[proof](../{item.proof})' if item.proof else 'found by the prover'


def by_file(items):
    """Definitions grouped by the file that they stand in."""
    groups = collections.OrderedDict()
    for i in items:
        groups.setdefault(i.path, []).append(i)
    return '; '.join(f'{" ".join(i.link() for i in group)} ({"/".join(path.parts[1:]).removesuffix(".antt")})'
                     for path, group in groups.items())


def own_definitions(exports):
    """For each export the definitions that its promise rests on and that at most a third of the exports share."""
    rests = {e: {d for d in cited(e) + reached(cited(e), cited, 8) if d.kind == 'def'} for e in exports}
    shared = collections.Counter(d for ds in rests.values() for d in ds)
    return {e: {d for d in ds if 3 * shared[d] <= len(exports)} | set(cited(e)) for e, ds in rests.items()}


def speaks_of(theorem):
    """What a statement names, and what the records in it do."""
    types = [u for u in theorem.uses if u.kind == 'type']
    return set(theorem.uses) | set(reached(types, lambda t: t.uses if t.kind == 'type' else [], 3))


def export_part(item, theorems, own):
    """The lines of one export."""
    promise = cited(item)
    made = [d for d in reached(promise, cited, DEEP) if d not in promise]
    code = [item] + reached([item], lambda f: f.calls, CALLS)
    meaning = [t for t in theorems if own & {u for u in speaks_of(t) if u.kind == 'def' and u.name not in GENERAL}]
    lines = [f'### {item.name}', '']
    lines.append(f'- **Promise**, at {item.link()}: {by_file(promise)}.')
    if made:
        lines.append(f'- **Made of**: {by_file(made)}.')
    lines.append('- **Code and proof**: ' + '; '.join(
        f'{f.link()} ({"/".join(f.path.parts[1:])}), {proof_of(f)}' for f in code) + '.')
    if meaning:
        lines.append('- **Theorems**: ' + ', '.join(
            f'{t.link()} ({"/".join(t.path.parts[1:]).removesuffix(".antt")})' for t in meaning) + '.')
    return lines + ['']


def condition(text):
    """The condition at the beginning of a text: up to the next step, or the bracket that closes around it."""
    depth = 0
    text = text.split(' refusing ')[0]
    for i, c in enumerate(text):
        depth += (c == '(') - (c == ')')
        if depth < 0:
            return text[:i].strip()
    return text.strip()


def tests_part(sources):
    """The table of the tests: where each is said, and where it is made."""
    number = next(i for k, i in sources.table.items() if k[0] == 'accept' and i.name == 'number')
    lines = ['| number | refusal | the definition that says it | the functions that make it, and their proofs |', '|---|---|---|---|']
    for refusal, n in re.findall(r'^number (\w+) = (\d+)$', number.body, re.M):
        said, made = [], []
        for item in dict.fromkeys(sources.table.values()):
            if item.path.parts[2] != 'specs' or item.kind != 'def' or item.crate == 'examples' or item is number:
                continue
            for when in re.findall(rf'refusing {refusal} when (.*)', item.body):
                said.append(f'{item.link()}: `{condition(when)}`')
            if re.search(rf'\(Err {refusal}\)', item.body) and 'refusing ' + refusal not in item.body:
                said.append(item.link())
        for item in dict.fromkeys(sources.functions.values()):
            if re.search(rf'Refusal::{refusal}\b', item.body) and item is not sources.functions[NUMBERS]:
                made.append(f'{item.link()} ({"/".join(item.path.parts[1:])}), {proof_of(item)}')
        lines.append(f'| {n} | {refusal} | {"; ".join(dict.fromkeys(said))} | {"; ".join(made)} |')
    return lines


def layers(deps):
    """The layer of each crate: one above the highest that it lists."""
    high = {}

    def layer(c):
        if c not in high:
            high[c] = 1 + max([layer(d) for d in deps[c] if d in deps], default=-1)
        return high[c]
    return {c: layer(c) for c in deps}


def picture(deps):
    """The crates by layer, the lowest at the bottom, with an arrow to each that no other arrow implies."""
    high = layers(deps)
    below = {c: set(deps[c]) & set(deps) for c in deps}
    direct = {c: [d for d in below[c] if not any(d in below[e] for e in below[c] if e != d)] for c in deps}
    rows = [[c for c in deps if high[c] == k] for k in range(max(high.values()) + 1)]
    place, wide = {}, 150 * max(map(len, rows))
    for k, row in enumerate(rows):
        row.sort(key=lambda c: (sum(place[d][0] for d in direct[c]) / len(direct[c]) if direct[c] else 0, c))
        for j, c in enumerate(row):
            place[c] = (wide * (j + 1) / (len(row) + 1), 60 + 80 * (len(rows) - 1 - k))
    tall = 60 + 80 * len(rows)
    out = [f'<svg xmlns="http://www.w3.org/2000/svg" viewBox="0 0 {wide} {tall}" font-family="sans-serif" font-size="14">',
           f'<rect width="{wide}" height="{tall}" fill="white"/>',
           f'<text x="12" y="22">{len(deps)} crates in {len(rows)} layers; a line goes down to what a crate rests on, where no other line implies it</text>']
    for c in deps:
        for d in sorted(direct[c]):
            (x, y), (u, v) = place[c], place[d]
            out.append(f'<path d="M{x:.0f},{y + 14} C{x:.0f},{y + 50} {u:.0f},{v - 50} {u:.0f},{v - 14}" fill="none" stroke="#99a"/>')
    for c, (x, y) in place.items():
        out.append(f'<rect x="{x - 50:.0f}" y="{y - 14}" width="100" height="28" rx="5" fill="#dfeaf5" stroke="#567"/>')
        out.append(f'<text x="{x:.0f}" y="{y + 5}" text-anchor="middle">{c}</text>')
    return '\n'.join(out + ['</svg>', ''])


def page(sources):
    """docs/MAP.md."""
    theorems = sources.theorems()
    exports = [f for f in sources.functions.values() if f.kind == 'export']
    lines = ['# Map', '',
             'From each call to its promise, its code and its proof; written by `docs/map.py` from the sources. A promise is the',
             "`ensures` at the export; the definitions that it cites stand in `specs/` of the crates, the functions in `src/`, the proofs in",
             '`proofs/`. Functions are named to four calls below the export, the first of which is that of the crate `viskunor`, definitions to',
             'five steps below the promise. A function whose proof the prover finds by itself has no file.', '',
             '![The crates by layer](crates.svg)', '',
             '## Tests', '']
    lines += tests_part(sources) + ['', '## Calls', '']
    own = own_definitions(exports)
    for item in exports:
        lines += export_part(item, theorems, own[item])
    return '\n'.join(lines).rstrip() + '\n'


def main():
    sources = Sources()
    made = {'docs/MAP.md': page(sources), 'docs/crates.svg': picture(sources.deps)}
    stale = []
    for name, text in made.items():
        path = ROOT / name
        if sys.argv[1:] == ['--check']:
            if not path.exists() or path.read_text(encoding='utf-8') != text:
                stale.append(name)
        else:
            path.write_text(text, encoding='utf-8')
    if stale:
        sys.exit('not as the sources have it, run docs/map.py: ' + ', '.join(stale))


if __name__ == '__main__':
    main()
