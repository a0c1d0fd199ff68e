#!/usr/bin/env python3
"""forms.py [-l] [DIR]: places in DIR's crates/*/src/*.rt (and, of point 8, in proofs/) that are written in an older form than Rattle's newest.

The points are those of docs/DESIGN-PASS.md. A row is a place to look at, not a verdict. With -l each place is printed, else how many there are.
"""
import collections
import glob
import os
import re
import sys

NONE_ARM = re.compile(r'^\s*(No|Nothing|Bad|Accepted|Passed|Admitted|Refused\(Refusal\)),', re.M)
SENTINEL = re.compile(r'\b(0|96|NONE) (for none|for no |where it does not|where it is not|at the end)|\bits sign\b|0 or the number|0 for a', re.I)
CODE = re.compile(r'^\s*(return )?(Refusal::\w+ => |\w+::\w+ => )?[12];$|=> \d+,$', re.M)
INDEX = re.compile(r'\b(\w+) ([+-])= 1;|\b(\w+) = \3 [+-] ')
TOKEN = re.compile(r"b?'[^']*'|b?\"[^\"]*\"|[A-Za-z_]\w*|\d+|[^\s\w]")
KEEP = {'fn', 'let', 'mut', 'if', 'else', 'while', 'loop', 'for', 'in', 'match', 'return', 'as', 'true', 'false', 'pub', 'break'}


# The whole of a body, white space apart, and what kind of conversion, comparison or choice it is then.
SMALL = [
    ('a cast alone', r'\(?\w+( & \d+)?\)? as \w+'),
    ('min or max', r'if (\w+) (<|<=) (\w+) \{ return (\w+); \} (\w+)'),
    ('bool as number', r'if \w+ \{ return 1; \} 0'),
    ('enum as bool', r'(?:let .*; )*match [^{]*\{ (?:[\w:(), _|]+ => (?:true|false),? )+\}'),
    ('enum as number', r"match [^{]*\{ (?:[\w:(), _|]+ => (?:\d+|b'.'),? )+\}"),
    ('number as enum', r'(?:if \w+ == \w+ \{ return [\w:()]+; \} ){2,}[\w:()]+'),
    ('equality', r'if (\w+) == (\w+) \{ return true; \} false|(?:if .* \{ return false; \} )?\w+ < \d+|\w+\(a\) == \w+\(b\)'),
    ('order', r'if (\w+) < (\w+) \{ return [\w:]+; \} if \1 == \2 \{ return [\w:]+; \} [\w:]+'),
    ('saturating', r'if \w+ == 0 \{ return 0; \} \w+ - 1'),
]


def functions(text):
    """(line, name, comment, signature, body) of each function."""
    for m in re.finditer(r'^( *)((?:pub |unsafe |extern "C" )*)fn (\w+)', text, re.M):
        opens = re.compile(r'^(?:%s\{|(?!\s*(?:requires|ensures)).*\{)$' % m.group(1), re.M).search(text, m.start())
        open_at = opens.end() - 1
        end = text.find('\n' + m.group(1) + '}', open_at)
        head = text[:m.start()].split('\n')[:-1]
        comment = []
        while head and re.match(r'\s*(//|#\[)', head[-1]):
            comment.insert(0, head.pop())
        yield text.count('\n', 0, m.start()) + 1, m.group(3), ' '.join(comment), text[m.start():open_at], text[open_at + 1:end]


def blocks(text):
    """(line, head, body) of each while and loop."""
    for m in re.finditer(r'^( *)((?:while|loop)\b[^\n]*)\{$', text, re.M):
        end = text.find('\n' + m.group(1) + '}', m.end())
        yield text.count('\n', 0, m.start()) + 1, m.group(2).strip(), text[m.end():end]


def parameters(signature):
    inside = signature[signature.index('('):]
    depth, end = 0, len(inside)
    for i, c in enumerate(inside):
        depth += c in '(<[' 
        depth -= c in ')]' or (c == '>' and inside[i - 1] != '-')
        if depth == 0:
            end = i
            break
    return re.findall(r'(\w+): ([^,]+?)(?:,|$)', re.sub(r'\s+', ' ', inside[1:end]))


def shape(body):
    return ' '.join(t if t in KEEP or not re.match(r'\w|b?[\'"]', t) else 'x' for t in TOKEN.findall(re.sub(r'//.*', '', body)))


def small(body):
    """The kind of conversion, comparison or choice that a whole body is, or none."""
    b = re.sub(r'\s+', ' ', re.sub(r'//.*', '', body)).strip()
    return next((kind for kind, form in SMALL if re.fullmatch(form, b)), None)


def main():
    args = [a for a in sys.argv[1:] if a != '-l']
    top = args[0] if args else '.'
    files = sorted(glob.glob(os.path.join(top, 'crates/*/src/*.rt')))
    found = collections.OrderedDict((k, []) for k in (
        '1a own enums of the shape of Option or Result', '1b results where a number stands for none, an order or a refusal',
        '1c refusals and kinds as bare numbers', '2 functions of one shape', '3 loops that count an index by hand', '3 other while and loop',
        '4 conversions, comparisons and choices by hand', '5a parameters that travel together, functions', '5b arrays used as structs, functions',
        '5c facts in the contracts of three or more functions', '6 fixed arrays', '7 bodies that only choose a function',
        '8a answers', '8b answers that are one call of a tactic'))
    shapes, pairs, facts = collections.defaultdict(list), collections.defaultdict(list), collections.defaultdict(list)
    for path in files:
        text = open(path, encoding='utf-8').read()
        short = os.path.relpath(path, os.path.join(top, 'crates')).replace('src/', '')
        for m in re.finditer(r'^(?:pub )?enum (\w+) \{\n(.*?)^\}', text, re.M | re.S):
            if NONE_ARM.search(m.group(2)):
                found['1a own enums of the shape of Option or Result'].append('%s:%d %s' % (short, text.count('\n', 0, m.start()) + 1, m.group(1)))
        for line, head, body in blocks(text):
            what = '%s:%d %s' % (short, line, head)
            found['3 loops that count an index by hand' if INDEX.search(body) else '3 other while and loop'].append(what)
        for line, name, comment, signature, body in functions(text):
            what = '%s:%d %s' % (short, line, name)
            answer = re.search(r'\) -> ([^\n{]*)', signature)
            if answer and re.match(r'(u32|usize|i32|Next|Place|Taken|NamesPlace|Lead)\b', answer.group(1)) and SENTINEL.search(comment):
                found['1b results where a number stands for none, an order or a refusal'].append(what)
            for m in CODE.finditer(body):
                found['1c refusals and kinds as bare numbers'].append('%s %s' % (what, m.group(0).strip()))
            kind = small(body)
            if kind:
                found['4 conversions, comparisons and choices by hand'].append('%s: %s' % (what, kind))
            if len(body.strip().split('\n')) >= 3:
                shapes[shape(body)].append(what)
            given = parameters(signature)
            names = [n for n, _ in given]
            for group in (('words', 'text'), ('flat', 'out'), ('flat', 'pane'), ('roots', 'heads'), ('heads', 'beginnings'), ('child', 'next'),
                          ('least', 'greatest'), ('at', 'len'), ('names', 'modules', 'records', 'used'), ('host', 'other', 'key')):
                if all(n in names for n in group):
                    pairs[group].append(what)
            for n, t in given:
                if re.search(r'\[\w+; (\w+::)*(RUN|WAY|NOTES)\]', t):
                    found['5b arrays used as structs, functions'].append(what)
            for fact in re.findall(r'requires(?: \w+)? \{ (.*?) \}\n', signature, re.S):
                for part in re.sub(r'\s+', ' ', fact).split(' × '):
                    facts[part.replace('.old', '.now').strip('()')].append(what)
            if re.fullmatch(r'(?:let \w+ = [^;]*; )*match [^{]*\{ (?:[\w:(), _]+ => (?:\w+::)*\w+\([^{}]*\),? )+\}', re.sub(r'\s+', ' ', body).strip()):
                found['7 bodies that only choose a function'].append(what)
            for m in re.finditer(r'\[(?:u8|u32|u64|usize); [\w:]+\]|= \[[\w]+; [\w:]+\]', signature + body):
                found['6 fixed arrays'].append('%s %s' % (what, m.group(0)))
        for m in re.finditer(r'^    pub (\w+): \[.*; .*\],$', text, re.M):
            found['6 fixed arrays'].append('%s:%d field %s' % (short, text.count('\n', 0, m.start()) + 1, m.group(1)))
    for group in shapes.values():
        if len(group) > 1:
            found['2 functions of one shape'].append(' ~ '.join(group))
    for group, places in pairs.items():
        if len(places) >= 3:
            found['5a parameters that travel together, functions'] += ['%s: %s' % (', '.join(group), p) for p in places]
    for fact, places in sorted(facts.items()):
        if len(places) >= 3:
            found['5c facts in the contracts of three or more functions'].append('%s: %d functions' % (fact, len(places)))
    for path in sorted(glob.glob(os.path.join(top, 'crates/*/proofs/**/Answers.antt'), recursive=True)):
        for m in re.finditer(r'^([a-z_0-9][\w-]*)(?: \w+)* =(.*(?:\n +.*)*)', open(path, encoding='utf-8').read(), re.M):
            term = re.sub(r'\s+', ' ', m.group(2)).strip()
            what = '%s %s' % (os.path.relpath(path, os.path.join(top, 'crates')), m.group(1))
            found['8a answers'].append(what)
            if re.fullmatch(r'(omega|grind|search|cc|simp)( [\w]+| \(\w+(, \w+)*\))?', term):
                found['8b answers that are one call of a tactic'].append('%s = %s' % (what, term))
    for point, places in found.items():
        print('%s: %d' % (point, len(places)))
        if '-l' in sys.argv:
            for place in places:
                print('    ' + place)


if __name__ == '__main__':
    main()
