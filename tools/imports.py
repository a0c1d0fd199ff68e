#!/usr/bin/env python3
"""imports.py [--check] [PATH...]: takes names out of `use` lines that the file does not use.

PATH is a file or a folder (crates). With --check it changes nothing, names each place, and closes with 'N passed, M failed', a file being one.
A name with holes (`◌+◌`) is used where its parts stand; `◌>>=◌` where a `do` does. `rt check` notes such imports too, and `rt tidy` takes them out.
"""
import os
import re
import sys

USE = re.compile(r'^(\s*(?:pub )?(?:ghost )?use )([^{;]+?)(?:\.\{([^}]*)\})?(?: as ([^;{]+))?(;?)\s*$')
WORD = r"[^\s(){}\[\],;.`⌜⌝⟦⟧]"


def used(name, body):
    """Whether `body` uses the imported name."""
    name = name.split(' as ')[-1].strip()
    if name == '◌>>=◌' and re.search(r'(?<!%s)do(?!%s)' % (WORD, WORD), body):
        return True
    if re.search(r'(?<!%s)%s(?!%s)' % (WORD, re.escape(name), WORD), body):
        return True
    parts = [p for p in name.split('◌') if p]
    for p in parts:
        if not re.search(r'(?<!%s)%s(?!%s)' % (WORD, re.escape(p), WORD), body):
            return False
    return True


def swept(text, rattle):
    """The text without the names that it does not use, and those names."""
    text = re.sub(r'^((?:pub )?(?:ghost )?use [^{};\n]+\.\{)\n((?:[^}])*)\}', lambda m: m.group(1) + ' '.join(m.group(2).split()).rstrip(',') + '}', text, flags=re.M)
    lines = text.split('\n')
    body = '\n'.join(l for l in lines if not USE.match(l) or l.lstrip().startswith('pub use'))
    body = re.sub(r'"[^"\n]*"', '', body)
    body = re.sub(r'//.*' if rattle else r'--.*', '', body)
    kept, gone = [], []
    for line in lines:
        m = USE.match(line)
        if not m or line.lstrip().startswith('pub use') or rattle and 'ghost' not in m.group(1):
            kept.append(line)
            continue
        head, module, names, alias, end = m.groups()
        if names is not None:
            names = [n.strip() for n in names.split(',') if n.strip()]
            stay = [n for n in names if used(n, body)]
            gone += [n for n in names if n not in stay]
            if stay:
                kept.append(f'{head}{module}.{{{", ".join(stay)}}}{end}')
        elif alias is None or re.search(r'(?<![\w·-])%s\.' % re.escape(alias.strip()), body) or used(alias.strip(), body):
            kept.append(line)
        else:
            gone.append(alias.strip())
    return '\n'.join(kept), gone


def files(paths):
    for path in paths:
        if os.path.isfile(path):
            yield path
        for folder, _, names in os.walk(path):
            if not {'must-fail', 'out'} & set(folder.split(os.sep)):
                yield from (os.path.join(folder, n) for n in sorted(names) if n.endswith(('.rt', '.antt')))


def main():
    check = '--check' in sys.argv
    paths = [a for a in sys.argv[1:] if a != '--check'] or ['crates']
    good = bad = 0
    for path in files(paths):
        text = open(path, encoding='utf-8').read()
        new, gone = swept(text, path.endswith('.rt'))
        if not gone:
            good += 1
            continue
        bad += 1
        print(f'{path}: unused: {", ".join(gone)}')
        if not check:
            open(path, 'w', encoding='utf-8').write(new)
    if check:
        print(f'{good} passed, {bad} failed')
    return 1 if check and bad else 0


if __name__ == '__main__':
    sys.exit(main())
