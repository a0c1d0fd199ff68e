#!/usr/bin/env python3
"""house.py [--check] [--write] [--above CRATE..]: the rooms, their crates, and what these really use.

crates.txt has the rooms in order, each begun by a comment line `# ROOM: what it is`. Prints a row a crate: lines of code, definitions, laws and
function proofs, must-fail edits, lines that are too long (tools/wrap.py); then the levels. Then what is out of order, a line each:
  a crate whose name does not begin with its room's, or that uses a crate of a later room;
  a dependency that crates.txt names and no file uses (a type or a definition that a used crate's structs or contracts name counts as used);
  a use that crates.txt does not name; a definition (specs/, or a contract) that cites proofs/;
  a bare word number outside crate memory, in code (`word_of(words, x, 3)`, `row[3]`) or in definitions and laws (`word r 3`, `stored ws x 10`);
  a function of more than eight parameters that is not exported, but for those named below; an edit of a proof;
  a page that does not show what crates.txt has: README the rooms and their picture, docs/HOUSE.md each crate by the first comment of its code.
--check prints these alone and closes with 'N passed, M failed'. --write writes the pages anew. --above says how many crates stand on each one named.
"""
import collections
import glob
import os
import re
import sys

from wrap import limits

KINDS = ['code', 'definitions', 'laws', 'proofs', 'edits', 'long']
# Where the words of a line, which are not a record's, have their names.
LAYOUTS = ('listing_output/specs/Output.antt',)
MOST_PARAMETERS = 8
CITE = re.compile(r'^\s*(?:pub )?(?:ghost )?use Rattle\.(?!std\.)([a-z0-9_]+)\.(specs|proofs)\.')
CALL = re.compile(r'\b([a-z][a-z0-9_]*)::')
BARE_CODE = re.compile(r'\b(?:word_of|stored)\([^;]*, \d+\)|\b(?:row|old|new|r|item)\[\d+\]')
BARE_SPEC = re.compile(r'(?<![\w·.-])(?:word (?:\((?:[^()]|\([^()]*\))*\)|[^\s()]+)|stored (?:\([^()]*\)|[^\s()]+) (?:\((?:[^()]|\([^()]*\))*\)|[^\s()]+)) \d+(?![\w·])')


def read(path):
    return open(path, encoding='utf-8').read()


def listed():
    """The rooms, by name what each is; the crates, by name what each uses; the room of each crate."""
    rooms, deps, room_of, room = {}, {}, {}, None
    for line in read('crates.txt').split('\n'):
        head = re.match(r'# ([a-z]+): (.*)', line)
        if head:
            room = head.group(1)
            rooms[room] = head.group(2)
        name, colon, rest = line.split('#')[0].partition(':')
        if colon:
            name = name.split()[0]  # a static library's has a second word
            deps[name] = rest.split()
            room_of[name] = room
    return rooms, deps, room_of


def lines_of(crate):
    """(path below the crate, kind of its lines, its lines), file by file."""
    top = os.path.join('crates', crate)
    for path in sorted(glob.glob(top + '/**/*', recursive=True)):
        rel = os.path.relpath(path, top)
        part = rel.split(os.sep)[0]
        if path.endswith(('.rt', '.antt')) and part in ('src', 'specs', 'proofs'):
            kind = {'src': 'code', 'specs': 'definitions'}.get(part, 'proofs' if rel.endswith(('Proof.antt', 'Answers.antt', 'Invariants.antt')) else 'laws')
            yield rel, kind, read(path).split('\n')


def in_clauses(lines):
    """Of each line of code whether it stands in a clause: from `requires` or `ensures` to the brace that closes it."""
    out, depth = [], 0
    for line in lines:
        begins = not depth and re.match(r'\s*(?:requires|ensures)\*? .*?\{', line)
        out.append(bool(begins or depth))
        if out[-1]:
            depth += line.count('{') - line.count('}')
    return out


def reached(crates):
    """For each crate, the crates whose types stand in fields of its public structs, or whose definitions its contracts cite: a caller needs them too."""
    out = collections.defaultdict(set)
    for crate in crates:
        for path in glob.glob(f'crates/{crate}/specs/*.antt'):
            out[crate] |= set(re.findall(r'^use Rattle\.(?!std\.|%s\.)([a-z0-9_]+)\.specs' % crate, read(path), re.M))
        for path in glob.glob(f'crates/{crate}/src/*.rt'):
            text = read(path)
            out[crate] |= set(re.findall(r'^ghost use Rattle\.(?!std\.|%s\.)([a-z0-9_]+)\.specs' % crate, text, re.M))
            origin = {t: c for c, ts in re.findall(r'^use (\w+)::\{?([\w, ]+)\}?;', text, re.M) for t in re.findall(r'\w+', ts)}
            for body in re.findall(r'pub (?:struct|enum) \w+ \{(.*?)\n\}', text, re.S):
                out[crate] |= {origin[t] for t in re.findall(r'\b([A-Z]\w*)\b', body) if t in origin}
    return out


def parameters(where, text):
    """The functions of a file of code that have too many."""
    for m in re.finditer(r'^ *((?:pub )?(?:extern "C" )?)fn (\w+)(?:<[^>]*>)?\(([^{]*?)\)(?: ->|$| \{)', text, re.M | re.S):
        count = len([p for p in m.group(3).split(',') if p.strip()])
        if 'extern' not in m.group(1) and count > MOST_PARAMETERS:
            yield f'{where}:{text.count(chr(10), 0, m.start()) + 1}: {m.group(2)} has {count} parameters'


def survey(deps):
    """The sizes of the crates, and what is out of order in their files and in what crates.txt says of them."""
    size = {c: collections.Counter() for c in deps}
    used, wrong = set(), []
    for crate in deps:
        for rel, kind, lines in lines_of(crate):
            if kind == 'code':
                wrong += parameters(f'crates/{crate}/{rel}', '\n'.join(lines))
            size[crate]['long'] += sum(len(s) > most for s, (most, _) in zip(lines, limits(f'crates/{crate}/{rel}', lines)))
            clause = in_clauses(lines) if kind == 'code' else [True] * len(lines)
            for n, s in enumerate(lines, 1):
                size[crate][kind] += bool(s.strip())
                m = CITE.match(s)
                if m:
                    used.add((crate, m.group(1)))
                    if m.group(2) == 'proofs' and kind in ('code', 'definitions'):
                        wrong.append(f'crates/{crate}/{rel}:{n}: a definition cites proofs: {s.strip()}')
                elif kind == 'code' and not s.lstrip().startswith('//'):
                    used |= {(crate, c) for c in CALL.findall(s) if c in deps}
                if f'{crate}/{rel}' not in LAYOUTS and crate != 'memory' and not m and not s.lstrip().startswith(('//', '--')) and 'fullShare' not in s:
                    if (BARE_SPEC if clause[n - 1] else BARE_CODE).search(s):
                        wrong.append(f'crates/{crate}/{rel}:{n}: a bare word number: {s.strip()[:100]}')
        for path in glob.glob(f'crates/{crate}/must-fail/*.edit'):
            size[crate]['edits'] += 1
            if 'file: proofs' in read(path):
                wrong.append(f'{path}: an edit of a proof')
    fields = reached(deps)
    for a in deps:
        through = {c for (x, b) in used if x == a for c in fields[b]}
        through |= {d for c in through for d in fields[c]}
        wrong += [f'crates.txt: {a} names {b}, which no file uses' for b in deps[a] if b in deps and (a, b) not in used and b not in through]
    wrong += [f'crates.txt: {a} does not name {b}, which it uses' for a, b in sorted(used) if b in deps and b != a and b not in deps[a]]
    return size, wrong


def misplaced(rooms, deps, room_of):
    """Crates that do not fit their room."""
    order = list(rooms)
    for a in deps:
        room = room_of[a]
        if room is None or a != room and not a.startswith(room + '_'):
            yield f'crates.txt: {a} stands in the room {room}'
            continue
        for b in deps[a]:
            if b in deps and room_of[b] in rooms and order.index(room_of[b]) > order.index(room):
                yield f'crates.txt: {a} uses {b}, of a later room'


def below(deps):
    """For each name all names that it stands on."""
    whole = {}

    def all_below(c):
        if c not in whole:
            near = [d for d in deps[c] if d in deps and d != c]
            whole[c] = set(near).union(*(all_below(d) for d in near))
        return whole[c]

    for c in deps:
        all_below(c)
    return whole


def levels(deps):
    """How many crates stand one on the other at the most."""
    height = {}

    def of(c):
        if c not in height:
            height[c] = 1 + max([of(d) for d in deps[c] if d in deps], default=0)
        return height[c]

    return max(of(c) for c in deps)


def picture(rooms, deps, room_of):
    """The rooms as a graph in Mermaid's words, what stands above pointing to what it stands on, an arrow that follows from others left out; then a line a room."""
    near = {r: sorted({room_of[b] for a in deps if room_of[a] == r for b in deps[a] if b in deps} - {r}) for r in rooms}
    whole = below(near)
    lines = ['```mermaid', 'graph TD']
    for r in reversed(list(rooms)):
        lines += [f'    {r} --> {s}' for s in near[r] if not any(s in whole[d] for d in near[r])]
    lines += ['```', '', '| room | what |', '|---|---|']
    return '\n'.join(lines + [f'| {r} | {what} |' for r, what in rooms.items()]) + '\n'


def register(rooms, deps, room_of):
    """A row a crate, by the first comment of its code."""
    lines = ['| room | crate | what |', '|---|---|---|']
    last = None
    for c in deps:
        (path,) = glob.glob(f'crates/{c}/src/lib.rt') + glob.glob(f'crates/{c}/src/main.rt')
        room, last = (room_of[c] if room_of[c] != last else ''), room_of[c]
        lines.append(f'| {room} | {c} | {re.search("^// *(.*)", read(path), re.M).group(1)} |')
    return '\n'.join(lines) + '\n'


# Each page: its path, the line after which the part stands that is made here, the line that it ends before, and what makes it.
PAGES = [('README.md', '<!-- rooms -->\n', '<!-- end of rooms -->', picture), ('docs/HOUSE.md', '<!-- crates -->\n', '<!-- end of crates -->', register)]


def pages(house, write):
    for path, head, end, make in PAGES:
        text = read(path)
        start = text.find(head)
        stop = text.find(end, start)
        if start < 0 or stop < 0:
            yield f'{path}: no place for what crates.txt has ({head.strip()} .. {end})'
            continue
        new = text[:start + len(head)] + make(*house) + text[stop:]
        if write:
            open(path, 'w', encoding='utf-8').write(new)
        elif new != text:
            yield f'{path}: not what crates.txt has (python3 tools/house.py --write)'


def main():
    house = rooms, deps, room_of = listed()
    if '--above' in sys.argv:
        whole = below(deps)
        for name in sys.argv[sys.argv.index('--above') + 1:]:
            print(name, sum(name in whole[c] for c in deps), 'of', len(deps))
        return 0
    size, wrong = survey(deps)
    wrong += misplaced(rooms, deps, room_of)
    wrong += pages(house, '--write' in sys.argv)
    if '--check' not in sys.argv:
        print(f'{"crate":22}' + ''.join(f'{k:>13}' for k in KINDS))
        for crate in list(deps) + ['all']:
            n = size[crate] if crate in deps else sum(size.values(), collections.Counter())
            print(f'{crate:22}' + ''.join(f'{n[k]:13}' for k in KINDS))
        print(f'{len(rooms)} rooms, {len(deps)} crates on {levels(deps)} levels')
    print('\n'.join(wrong) if wrong else 'nothing out of order')
    if '--check' in sys.argv:
        print(f'{len(deps)} passed, {len(wrong)} failed')
    return 1 if wrong and '--check' in sys.argv else 0


if __name__ == '__main__':
    sys.exit(main())
