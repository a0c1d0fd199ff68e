#!/usr/bin/env python3
"""edits.py [--check]: the must-fail edits, a line each: crate/label, and what must be so by the edit's own first line.

--check fails where an edit's `old:` text does not stand exactly once in its file, and where a document names an edit (`must-fail crate/label`, and
after it in the same brackets `, crate/label`) that is not there; its last line is 'N passed, M failed'.
"""
import glob
import os
import re
import sys


def edits():
    """Of each edit its name, its first line, and the text that it changes in each file."""
    for path in sorted(glob.glob('crates/*/must-fail/*.edit')):
        lines = open(path, encoding='utf-8').read().split('\n')
        changes, file = [], None
        for line in lines:
            file = line[6:] if line.startswith('file: ') else file
            if line.startswith('old: '):
                changes.append((file, line[5:]))
        yield f'{path.split("/")[1]}/{os.path.basename(path)[:-5]}', lines[0].lstrip('# '), changes


def named():
    """The edits that documents name, with the place."""
    for path in ['README.md'] + sorted(glob.glob('docs/*.md')):
        for n, line in enumerate(open(path, encoding='utf-8'), 1):
            for listed in re.findall(r'must-fail ((?:[a-z0-9_]+/[a-z0-9_]+(?:, | and )?)+)', line):
                for name in re.findall(r'[a-z0-9_]+/[a-z0-9_]+', listed):
                    yield f'{path}:{n}', name


def main():
    found = list(edits())
    if '--check' not in sys.argv:
        print('\n'.join(f'{name}: {what}' for name, what, _ in found))
        return 0
    wrong, right = [], 0
    for name, _, changes in found:
        crate = name.split('/')[0]
        counts = [open(f'crates/{crate}/{file}', encoding='utf-8').read().count(old) for file, old in changes]
        if changes and all(n == 1 for n in counts):
            right += 1
        else:
            wrong.append(f"{name}: its 'old:' text stands {counts} times")
    there = {name for name, _, _ in found}
    for place, name in named():
        if name in there:
            right += 1
        else:
            wrong.append(f'{place}: there is no edit {name}')
    print('\n'.join(wrong + [f'{right} passed, {len(wrong)} failed']))
    return 1 if wrong else 0


if __name__ == '__main__':
    sys.exit(main())
