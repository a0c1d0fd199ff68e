#!/usr/bin/env python3
"""spare.py NAME..: of each crate, takes the answers out that the check finds alone, and says how many are left.

Each Answers.antt is set aside, `rt check` lists the goals that stay open, and the answers of these come back, with what they name. Where the crate
does not prove then, all of its answers come back as they were.
"""
import glob
import os
import re
import subprocess
import sys

GOAL = re.compile(r'`([^`]+)` of (proofs/[^`\s]+/Answers\.antt) must prove')
WORD = re.compile(r"[^\s(){}\[\],;.`]+")


def check(crate):
    run = subprocess.run(['rt', 'check'], cwd=crate, stdout=subprocess.PIPE, stderr=subprocess.STDOUT, text=True)
    return run.returncode == 0, run.stdout


def entries(text):
    """The head of an answers' file, and its entries as (name, text): a signature, its equations, the comment above it."""
    head, found, comment = [], [], []
    for line in text.split('\n'):
        m = re.match(r'(?:pub |abbrev |unfoldable |axiom )*(?!use |mod |unfolding )([^\s:=]+)', line)
        if line[:1].strip() and m and not line.startswith('--'):
            name = m.group(1)
            if found and found[-1][0] == name:
                found[-1][1].append(line)
            else:
                found.append((name, comment + [line]))
            comment = []
        elif line.startswith('--') and found:
            comment.append(line)
        elif found:
            found[-1][1].append(line)
        else:
            head.append(line)
    return '\n'.join(head), [(n, '\n'.join(t).rstrip()) for n, t in found]


def reduced(text, goals):
    head, all_entries = entries(text)
    kept, words = set(), set(goals) | {g.split('-clause-')[0] for g in goals}
    while True:
        more = {n for n, t in all_entries if n not in kept and n in words}
        if not more:
            break
        kept |= more
        for n, t in all_entries:
            if n in more:
                words |= set(WORD.findall(t))
    used = [t for n, t in all_entries if n in kept]
    return head.rstrip() + '\n\n' + '\n\n'.join(used) + '\n' if used else None


def main():
    for name in sys.argv[1:]:
        crate = os.path.join('crates', name)
        files = {os.path.relpath(p, crate): open(p, encoding='utf-8').read()
                 for p in glob.glob(os.path.join(crate, 'proofs/**/Answers.antt'), recursive=True)}
        if not files:
            continue
        for path in files:
            os.remove(os.path.join(crate, path))
        _, out = check(crate)
        open_goals = {}
        for goal, path in GOAL.findall(out):
            open_goals.setdefault(path, set()).add(goal)
        before = sum(len(entries(t)[1]) for t in files.values())
        after = 0
        for path, text in files.items():
            new = reduced(text, open_goals.get(path, ()))
            if new:
                after += len(entries(new)[1])
                os.makedirs(os.path.dirname(os.path.join(crate, path)), exist_ok=True)
                with open(os.path.join(crate, path), 'w', encoding='utf-8') as f:
                    f.write(new)
        good, out = check(crate)
        if not good:
            for path, text in files.items():
                os.makedirs(os.path.dirname(os.path.join(crate, path)), exist_ok=True)
                with open(os.path.join(crate, path), 'w', encoding='utf-8') as f:
                    f.write(text)
        print('%s: %d answers and lemmas beside them, %d needed%s' % (name, before, after, '' if good else '; NOT PROVED with these alone, left as it was'), flush=True)


if __name__ == '__main__':
    main()
