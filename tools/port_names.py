#!/usr/bin/env python3
"""Turns the repository's own names to snake case, as today's Rattle spells them (run once, after port.py).

A name of specs/, of a lemma file or of a binder there that has a dash gets underscores (`key-at`, `key_at`); a dash after a type's
name stays (`AllKeys-map`). In clauses `old x` and `new x` become `x.now`, `x.old` and `x.new`. Names of the kit, which `use` lines bring from elsewhere, and names that Rattle makes keep theirs.
Files: each .antt, the code of each .rt, the must-fail edits, and what stands in backticks in the pages.
`--list` prints the names and where two would fall together, and writes nothing.
"""
import glob
import os
import re
import subprocess
import sys

os.chdir(os.path.join(os.path.dirname(os.path.abspath(__file__)), '..'))
BREAK = r'\s(){};,."`'
TOKEN = re.compile(r'[^%s]+' % BREAK)
USE = re.compile(r'^\s*(?:ghost )?(?:pub )?use ([^{;\s]+?)\.?(?:\{(.*)\})?;?\s*$')


def read(path):
    return open(path, encoding='utf-8').read()


def lemma_file(path):
    return len(path.split('/')) == 4  # crates/NAME/specs|proofs/X.antt


antt = sorted(p for p in glob.glob('crates/**/*.antt', recursive=True) if '/out/' not in p)
rt = sorted(p for p in glob.glob('crates/*/src/**/*.rt', recursive=True))
edits = sorted(glob.glob('crates/*/must-fail/*'))
pages = ['README.md'] + sorted(glob.glob('docs/**/*.md', recursive=True))
crates = {os.path.basename(os.path.dirname(p)) for p in glob.glob('crates/*/src')}


def code_of(line, mark='--'):
    """The line without its comment, and the comment."""
    at = re.search(r'(?:^|(?<=\s))%s(?:\s|$)' % re.escape(mark), line)
    return (line, '') if not at else (line[:at.start()], line[at.start():])


kit = set()
for p in antt + rt:
    for line in read(p).split('\n'):
        m = USE.match(line)
        if not m or not m.group(2):
            continue
        parts = m.group(1).split('.')
        own = parts[0] == 'Rattle' and len(parts) > 2 and parts[1] in crates and not (
            len(parts) > 4 and parts[2] in ('proofs',) and parts[-1] in ('Statement', 'Tie', 'Symbol', 'Met', 'Key', 'TheLaws'))
        if not own:
            for item in m.group(2).split(','):
                kit.update(w for w in item.split() if w != 'as')

ours = set()
for p in antt:
    if lemma_file(p):
        for line in read(p).split('\n'):
            if not USE.match(line):
                ours.update(t for t in TOKEN.findall(code_of(line)[0]) if re.search(r"[^\W_]['ᶜ]?-[^\W_]|[^\w\s]-[a-z]", t))
# What a proof file declares by itself: the function's theorem.
for p in antt:
    if not lemma_file(p):
        ours.update(m.group(1) for m in re.finditer(r'(?m)^pub ([^\s(){};,."`:]+-spec) : ', read(p)))
ours -= kit
ours = {t for t in ours if not t.startswith('-')}


def new(name):
    head, dash, tail = name.partition('-')
    if dash and tail and head[:1].isupper() and head[1:2].islower():
        return head + '-' + tail.replace('-', '_')
    return name.replace('-', '_')


names = {t: new(t) for t in ours if new(t) != t}


def turn(text):
    return TOKEN.sub(lambda m: names.get(m.group(), m.group()), text)



CLAUSE = re.compile(r'\b(requires|ensures)\*?(?: \w+)? \{')


def clauses(text):
    """Where the clauses of a .rt file stand, each from its brace to the brace that closes it."""
    for m in CLAUSE.finditer(text):
        depth, i = 0, m.end() - 1
        while True:
            depth += {'{': 1, '}': -1}.get(text[i], 0)
            i += 1
            if not depth:
                break
        yield m.end(), i - 1


def lent(text):
    """`old x` and `new x` of a clause as today's `x.now` of a &, `x.old` and `x.new` of a &mut; their import goes."""
    out, last = [], 0
    for a, b in clauses(text):
        at = max(m.start() for m in re.finditer(r'\bfn \w+', text[:a]))
        head = text[at:a]
        muts = set(re.findall(r'(\w+): &(?:\'\w+ )?mut ', head)) | ({'self'} if '&mut self' in head else set())

        def now(m):
            word, x = m.group(1) or m.group(3), m.group(2) or m.group(4)
            return f'{x}.{word}' if x in muts else f'{x}.now'
        out += [text[last:a], re.sub(r"\((old|new) ([a-z_]+)\)|\b(old|new) ([a-z_]+)", now, text[a:b])]
        last = b
    text = ''.join(out) + text[last:]

    def use(m):
        kept = [w for w in re.split(r',\s*', m.group(1)) if w not in ('old', 'new')]
        return 'ghost use Rattle.source.specs.Lent.{' + ', '.join(kept) + '};\n' if kept else ''
    return re.sub(r'ghost use Rattle\.source\.specs\.Lent\.\{([^}]*)\};\n', use, text)


def plain(comment):
    return re.sub(r"[-_·]|′|'", '-', comment)


def comments(path, text, mark):
    """The comments as they stood before port.py, which took some of their words for names."""
    before = subprocess.run(['git', 'show', 'HEAD:' + path], capture_output=True, text=True).stdout
    old = {}
    for line in before.split('\n'):
        c = code_of(line, mark)[1]
        old.setdefault(plain(c), c)
    out = []
    for line in text.split('\n'):
        code, c = code_of(line, mark)
        out.append(code + old.get(plain(c), c))
    return '\n'.join(out)


def main():
    for p in antt + rt:
        text = read(p)
        tokens = set(TOKEN.findall('\n'.join(code_of(l, '//' if p.endswith('.rt') else '--')[0] for l in text.split('\n'))))
        for t in sorted(tokens & set(names)):
            if names[t] in tokens:
                print(f'together: {p}: {t} {names[t]}')
    if '--list' in sys.argv:
        print('\n'.join(f'{a} {b}' for a, b in sorted(names.items())))
        return
    for p in antt + rt:
        mark = '//' if p.endswith('.rt') else '--'
        out = []
        was = comments(p, read(p), mark)
        for line in (lent(was) if p.endswith('.rt') else was).split('\n'):
            code, comment = code_of(line, mark)
            comment = re.sub(r'`[^`]*`', lambda m: turn(m.group()), comment)
            out.append(turn(code) + comment)
        with open(p, 'w', encoding='utf-8') as f:
            f.write('\n'.join(out))
    for p in edits:
        text = re.sub(r'(?m)^(old|new):.*$', lambda m: turn(m.group()), read(p))
        with open(p, 'w', encoding='utf-8') as f:
            f.write(text)
    for p in pages:
        text = re.sub(r'`[^`\n]*`', lambda m: turn(m.group()), read(p))
        with open(p, 'w', encoding='utf-8') as f:
            f.write(text)


main()
