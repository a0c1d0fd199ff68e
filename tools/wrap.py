#!/usr/bin/env python3
"""wrap.py [--check] [PATH..]: breaks lines that are too long, and has `rt fmt` lay them out. PATH is a file or a folder (crates).

Statements (types of laws and definitions, fields, heads of records, contracts, all of specs/) have at most 120 characters; bodies of proofs/, comments
and `use` lines 160. A line is broken where its brackets are least deep: after `in`, before `→`, after `=`, before another operator, before an argument;
a list is opened, an element a line; a `use` line becomes two of the same file. Tokens stay in order; no text that a must-fail edit names is
broken. With --check it changes nothing. It names the lines that stay too long, and closes with 'N passed, M failed', a file being one.
"""
import glob
import os
import re
import subprocess
import sys

STATEMENT, PROOF = 120, 160
SIGNATURE = re.compile(r'\s*(?:(?:pub|abbrev|unfoldable) )*(?:[^\s(){}\[\];,]+ :(?: |$)|(?:record|data|module) )')
USE = re.compile(r'((?:pub )?(?:ghost )?use [^{;]+\.\{)([^{}]*)(\};?)$')
COMMENT = re.compile(r'(\s*(?:--|//[/!]?)\s+)(?=\S)')
WHOLE = re.compile(r'let \S+ = [^()]*? in\b|\{-.*?-\}|"[^"]*"|λ [^.]*\.|\([^()]* :|record \{|(requires|ensures) [^⌜]*⌜')
AFTER = [(0, r' in'), (3, r' \$')]                      # what a line may end with, and how good that is: 0 is the best
BEFORE = [(1, '→'), (3, '[×∙⊛]'), (5, '[≡≤<≢]'), (6, r'\+\+|[∷+*\-]'), (7, r'[(\[{⌜].*|record|λ|omega|rw')]
ATOM, BOUND = re.compile(r'(?!(in|at|where|as)\b)[\w_]'), re.compile(r'(let|at|unfold|elim|λ|record|pub|abbrev|unfoldable|:|=|[^\w\s)\]}.]+)$')
CLOSES = {'(': ')', '[': ']', '{': '}', '⌜': '⌝'}


def turn(ch):
    return (ch in CLOSES) - (ch in CLOSES.values())


def lists(line):
    """The brackets of a line that hold a list: where each opens and closes (the line's end, if on a later line)."""
    stack, found = [], []
    for k, ch in enumerate(line):
        if ch in CLOSES:
            stack.append([k, len(line), line[:k + 1].endswith('record {')])
            found.append(stack[-1])
        elif stack and turn(ch):
            stack.pop()[1] = k
        elif stack and (ch in ',;↦' or line[k:k + 3] == ' | '):
            stack[-1][2] = True
    return [(a, b) for a, b, is_list in found if is_list]


def breaks(line, start):
    """The places where a line may be broken: how deep in brackets, how good (0 is the best), where, and what it opens."""
    opened, whole, deep, equals = lists(line), [m.span() for m in WHOLE.finditer(line)], 0, False
    for k, ch in enumerate(line):
        inside = [s for s in opened if s[0] < k <= s[1]]
        if inside and inside[0][0] == k - 1:
            yield deep, 0, k, inside[0]
        deep += turn(ch)
        if ch != ' ' or inside or k <= start or any(a < k < b for a, b in whole):
            continue
        word, before = re.match(r'\S*', line[k + 1:]).group(0), line[:k]
        kinds = [n for n, p in AFTER if re.search(p + '$', before)] + [n for n, p in BEFORE if re.fullmatch(p, word)]
        if before.endswith(' =') and not deep and not equals:
            equals, kinds = True, [2]
        if kinds or ATOM.match(word) and not BOUND.search(before):
            yield deep, min(kinds, default=8), k + 1, None


def broken(line, limit, kept):
    """A line in two, or None where it has no good place. `kept` are the spans that stay whole."""
    start, found = len(line) - len(line.lstrip()), {}
    for deep, kind, k, opens in breaks(line, start):
        if k <= min(limit + (not opens), len(line) - 3) and not any(a < k < b or opens and k <= b and a <= opens[1] for a, b in kept):
            found.setdefault((deep, kind), []).append(k)
    last = [ks[-1] for _, ks in sorted(found.items())]
    good = [k for k, (_, kind) in zip(last, sorted(found)) if not kind or k - start > 0.3 * (limit - start) or start + 4 < k and start + 4 + len(line) - k <= limit]
    k = good[0] if good else max(last, default=0)
    return [line[:k].rstrip(), ' ' * (start + 4) + line[k:].lstrip()] if k > start + 4 or good else None


def comment(line, limit, kept):
    head = COMMENT.match(line).group(1)
    ends = [m.end() for m in re.finditer(r'\S(?= )', line[:limit + 1]) if m.end() > len(head)]
    k = ([k for k in ends if line[k - 1] in '.,;:' and k > 0.6 * limit] or ends or [0])[-1]
    return k and not kept and [line[:k], head + line[k:].strip()]


def used(line, limit, kept):
    head, names, tail = USE.match(line).groups()
    k = max((m.start() for m in re.finditer(', ', names) if len(head + tail) + m.start() <= limit), default=0)
    return k and not kept and [head + names[:k] + tail, head + names[k + 2:] + tail]


def limits(path, lines):
    """For each line its limit, and what breaks it."""
    deep, state, code = 0, PROOF, path.endswith('.rt')
    for line in lines:
        if COMMENT.match(line) or USE.match(line):
            yield PROOF, comment if COMMENT.match(line) else used
            continue
        if code and not deep:
            state = STATEMENT if re.match(r'\s*(requires|ensures) ', line) else None
        elif not deep:
            state = STATEMENT if '/specs/' in path or SIGNATURE.match(line) else PROOF if re.search(r' =( |$)|^\s*unfolding ', line) else state
        yield (state, broken) if state else (10 ** 9, None)
        deep += sum(map(turn, re.sub(r'\{-.*?-\}', '', line))) if state else 0


def named(path):
    """The texts that must-fail edits name in a file."""
    crate, out = re.match(r'(.*crates/[^/]+)/(.*)', path), []
    for edit in glob.glob(f'{crate.group(1)}/must-fail/*.edit') if crate else []:
        file = None
        for line in open(edit, encoding='utf-8').read().split('\n'):
            file = line[6:] if line.startswith('file: ') else file
            out += [line[5:]] if line.startswith('old: ') and file == crate.group(2) else []
    return out


def wrapped(path, text, olds):
    """The text with each line that is too long in two."""
    out, lines = [], text.split('\n')
    for line, (limit, how) in zip(lines, limits(path, lines)):
        kept = [(line.index(o), line.index(o) + len(o)) for o in olds if o in line]
        out += len(line) > limit and how(line, limit, kept) or [line]
    return '\n'.join(out)


def bare(text):
    """What must stay: all but blanks, comment marks, `use` lines, and a list's last separator."""
    text = '\n'.join(COMMENT.sub('', l) for l in text.split('\n') if not USE.match(l))
    return re.sub(r'[,;](?=[)\]}])', '', re.sub(r'\s+', '', text)).replace('[|', '[')


def fmt(crate):
    """What `rt fmt` says in a crate's folder."""
    done = subprocess.run(['rt', 'fmt'], cwd=crate, capture_output=True, text=True)
    return done.stderr + done.stdout


def main():
    args = [a for a in sys.argv[1:] if a != '--check'] or ['crates']
    found = [f for a in args for f in ([a] if os.path.isfile(a) else glob.glob(f'{a}/**/*.antt', recursive=True) + glob.glob(f'{a}/**/*.rt', recursive=True))]
    paths = sorted({f for f in found if re.search(r'/(specs|proofs|src)/', f) and '/out/' not in f})
    read, write = lambda p: open(p, encoding='utf-8').read(), lambda p, t: open(p, 'w', encoding='utf-8').write(t)
    first, olds, failed = {p: read(p) for p in paths}, {p: named(p) for p in paths}, 0
    moved = set(paths) if '--check' not in sys.argv else set()
    while moved:
        texts = {p: read(p) for p in moved}
        moved = {p for p in moved if (new := wrapped(p, texts[p], olds[p])) != texts[p] and write(p, new)}
        said = ''.join(fmt(c) for c in sorted({re.match(r'.*crates/[^/]+', p).group() for p in moved}))
        for p in sorted(moved):
            if p in said or bare(read(p)) != bare(first[p]) or any(read(p).count(o) != 1 for o in olds[p]):
                print(f'{p}: left as it was. {said[:300]}')
                write(p, first[p])
        moved = {p for p in moved if read(p) not in (first[p], texts[p])}
    for p in paths:
        lines = read(p).split('\n')
        long = [f'{p}:{i + 1}: {len(l)} characters, at most {n}' for i, (l, (n, _)) in enumerate(zip(lines, limits(p, lines))) if len(l) > n]
        failed += bool(long)
        print(''.join(f'{l}\n' for l in long), end='')
    print(f'{len(paths) - failed} passed, {failed} failed')
    return 1 if failed and '--check' in sys.argv else 0


if __name__ == '__main__':
    sys.exit(main())
