#!/usr/bin/env python3
"""laws.py [--check]: the laws of crates/*/proofs/*.antt that nothing uses, and private definitions of specs/ that nothing uses, one a line.

A law is used where a function, a contract, a function's proof, a definition or a law that is used names it; where its file is called Examples or
Cases; or where a document (docs/*.md, README.md) has its name in backticks. Records and data types count by their names and constructors, not by
fields. With --check the last line is 'N passed, M failed', a law or definition being one.
"""
import glob
import os
import re
import sys

WORD = r"[^\s(){}\[\],;.`⌜⌝⟦⟧]+"
MARK = r'(?:(?:pub|abbrev|unfoldable) )*'
GROUP = re.compile(r'\s*(?:%smutual|(?:pub )?module\b.*)\s*$' % MARK)
DECL = re.compile(r'(\s*)(%s)(?:(record|data) (%s)|(%s(?: %s)*) :(?:\s|$))' % (MARK, WORD, WORD, WORD))
CITE = re.compile(r'Rattle\.(\w+)\.(specs|proofs)\.(\w+)')
PATH = re.compile(r'\b(\w+)::(specs|proofs)::(\w+)::(\w+)')  # of an attribute: using(crate::proofs::Notes::note_one)


class Law:
    def __init__(self, path, line, names, public):
        self.path, self.line, self.names, self.public, self.text = path, line, names, public, []


def parse(path, text):
    """The laws of a file, and the words that stand in none of them."""
    laws, rest, now, depth, into = [], [], None, 0, None
    for number, line in enumerate(text.split('\n'), 1):
        indent = len(line) - len(line.lstrip())
        declared = DECL.match(line)
        if not line.strip() or line.lstrip().startswith('use '):
            continue
        if now and (indent > depth or not declared and not GROUP.match(line) and not line.startswith('mod ')):
            if into is not None and indent == into and declared:  # a constructor
                now.names += declared.group(5).split()
            now.text.append(line)
        elif declared:
            names = [declared.group(4)] if declared.group(3) else declared.group(5).split()
            now, depth = Law(path, number, names, 'pub' in declared.group(2).split()), indent
            into = indent + 2 if declared.group(3) == 'data' else None
            now.text.append(line)
            laws.append(now)
        else:
            now = None
            rest.append(line)
    return laws, '\n'.join(rest)


def names_in(text, by_name, places):
    """The laws that a text names: of the files among `places`."""
    words = set(re.findall(WORD, text))
    words |= {law for law in by_name if '◌' in law and all(p in words for p in law.split('◌') if p)}
    return [law for word in words for law in by_name.get(word, ()) if law.path in places]


def main():
    files = [p for p in sorted(glob.glob('crates/*/**/*', recursive=True)) if p.endswith(('.rt', '.antt')) and '/must-fail/' not in p and '/out/' not in p]
    texts = {p: re.sub(r'--.*' if p.endswith('.antt') else r'//.*', '', re.sub(r'"[^"\n]*"', '', open(p, encoding='utf-8').read())) for p in files}
    docs = ''.join(open(p, encoding='utf-8').read() for p in glob.glob('docs/*.md') + ['README.md'])
    documented = set(re.findall(r'`([^`\s]+)`', docs))
    laws, roots = [], []
    for path in files:
        cited = {path} | {'crates/%s/%s/%s.antt' % m for m in CITE.findall(texts[path])}
        cited |= {'crates/%s/%s/%s.antt' % (path.split('/')[1] if m[0] == 'crate' else m[0], m[1], m[2]) for m in PATH.findall(texts[path])}
        found, rest = [], texts[path]
        if re.fullmatch(r'crates/[^/]+/(specs|proofs)/[^/]+\.antt', path) and not path.endswith('Lib.antt'):
            found, rest = parse(path, texts[path])
        laws += found
        roots.append(('\n'.join(l for l in rest.split('\n') if not l.lstrip().startswith(('use ', 'ghost use'))), cited))
        for law in found:
            law.cited = cited
    by_name = {}
    for law in laws:
        for name in law.names:
            by_name.setdefault(name, []).append(law)
    used, todo = set(), []
    for text, cited in roots:
        todo += names_in(text, by_name, cited)
    for law in laws:
        if os.path.basename(law.path) in ('Examples.antt', 'Cases.antt') or law.public and ('/specs/' in law.path or documented & set(law.names)):
            todo.append(law)
    while todo:
        law = todo.pop()
        if law not in used:
            used.add(law)
            todo += names_in('\n'.join(law.text), by_name, law.cited)
    unused = [law for law in laws if law not in used]
    for law in unused:
        print(f'{law.path}:{law.line}: {" ".join(law.names)}: {"public" if law.public else "private"}, nothing uses it')
    if '--check' in sys.argv:
        print(f'{len(laws) - len(unused)} passed, {len(unused)} failed')
    return 1 if unused and '--check' in sys.argv else 0


if __name__ == '__main__':
    sys.exit(main())
