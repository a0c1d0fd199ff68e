#!/usr/bin/env python3
"""Writes what `make fuzz` begins with: seeds.py DIR makes DIR/seeds, an input for each script below, and DIR/screen.dict, a token for each of their commands.

An input is what fuzz/screen.c reads: seven bytes that say how much is lent, then commands. A text is the number of one of that file's texts, or 200, its
length and its bytes.
"""
import os
import re
import sys

HERE = os.path.dirname(os.path.abspath(__file__))
# An input's most bytes: -max_len in the Makefile.
INPUT = 600
SOURCE = open(HERE + '/screen.c', encoding='utf-8').read()
TEXTS = re.findall(r'"([^"]*)"', re.search(r'texts\[\] = \{(.*?)\};', SOURCE, re.S).group(1))
LENGTH = int(re.search(r'MOST = (\d+)', SOURCE).group(1))


def text(s):
    if s in TEXTS:
        return bytes([TEXTS.index(s)])
    assert len(s) < LENGTH, s
    return bytes([200, len(s)]) + s.encode()


def number(n, size=4):
    return n.to_bytes(size, 'little')


def lent(records=120, text_bytes=800, lines=19, out=500, state=16):
    """How much is lent; a state shorter than 16 bytes has 10 at least."""
    return bytes([0 if state == 16 else 240 + state, records, 0, text_bytes // 4, lines, 0, out // 2])


def registration(op, host, other, key='', n=0):
    return bytes([op]) + text(host) + text(other) + text(key) + number(n)


def name(host, key, n):
    """The kind of the item is n modulo 5: 1 Timer, 2 Port, 3 Register."""
    return registration(0, host, key, n=n)


def include(host, query):
    return registration(1, host, query)


def open_namespace(host, query):
    return registration(2, host, query)


def open_module(host, query):
    return registration(3, host, query)


def alias(key, host, query):
    return registration(4, host, query, key)


def module(loaded, query, path):
    return registration(5, query, path, n=loaded)


def find(query):
    """Of a name, and of a module."""
    return bytes([6]) + text(query)


def names(query, kind=0, budget=4096):
    return bytes([8]) + text(query) + bytes([kind, 0]) + number(budget)


def modules(query, choice=0, budget=4096):
    return bytes([10]) + text(query) + bytes([choice, 0]) + number(budget)


def poke(words, at, value):
    """A byte of the words, or of the state."""
    return bytes([12, int(words)]) + number(at, 2) + bytes([value])


LONG = 'k' * 32
DEEP = 'a.' * 16
EVERY_CALL = [name('a.', 'b', 1), include('a.', 'b.'), open_namespace('a.', 'b.'), open_module('a.', 'b.'), alias('x', 'a.', 'b.'),
              module(1, 'a.b.', 'io/bus'), find('a.b.'), names(''), modules('')]
FOUR = [name('Saved.', 'offs', 1), include('Live.', 'Saved.'), name('Saved.', 'z', 2), name('Live.', 'offs', 3)]

# By name: what is lent, and the commands. Together they meet every answer that a call can give to a table that calls made, and answer 1.
SCRIPTS = {
    'names': (lent(), [
        name('', 'a', 1), name('', 'b', 2), name('', 'c', 3), name('a.', 'b', 6), name('a.b.', 'c', 4294967293), find('a.'), find('a.b.c.'), find('z.z.'),
        names(''), names('.'), names('a.'), names('a..'), names('', 1), names('', 2), names('', 3), names('', 4)]),
    'include': (lent(), FOUR + [
        find('Live.offs.'), find('Saved.z.'), find('Live.z.'), names('Live.o.'), names(''), names('.', 3), include('', 'Saved.'), names('o.'), find('offs.')]),
    'open': (lent(), [
        name('a.b.', 'c', 1), name('a.', 'x', 2), open_namespace('b.', 'a.'), open_module('Live.', 'a.'), find('b.b.c.'), find('Live.x.'), names('b.'),
        names('Live.'), names('')]),
    'alias': (lent(), FOUR + [
        alias('x', 'Live.', 'Saved.'), find('Live.x.z.'), names('Live.x.'), alias('a', '', 'Live.'), names('a.'), alias('a', '', 'z.z.'), names('a.')]),
    'modules': (lent(), [
        module(1, 'a.b.c.', 'io/bus'), module(0, 'a.b.d.', ''), module(0, 'a.', 'x'), module(1, 'x.y.', 'x'), module(0, 'x.y.', 'c'), module(2, 'a.', 'x'),
        find('a.b.c.'), find('a.b.'), find('x.y.'), find('b.a.')] + [modules(q, c) for q in ('', 'a.') for c in range(5)] + [modules('.')]),
    'holders': (lent(), [
        name('a.', 'x', 1), name('b.', 'x', 2), name('b.', 'c', 3), include('', 'a.'), include('', 'b.'), name('', 'x', 6), names('x.'), names(''),
        open_namespace('Live.', ''), open_namespace('Live.', 'a.'), names('Live.'), find('x.'), find('c.')]),
    # Lists that weigh 96 at last, and begin with an import.
    'crowded': (lent(200, 1000), [name('a.', 'b', 1)] + [include('a.', 'a.')] * 4 + [
        include('b.', 'a.'), include('a.', 'a.'), include('a.', 'b.'), names('a.'), name('a.', 'x', 1), include('a.', 'z.z.'), open_module('a.', 'a.'),
        alias('x', 'a.', 'a.'), find('a.b.'), names('')]),
    'crowded-namespaces': (lent(200, 1000), [name('a.b.', 'c', 1)] + [open_namespace('a.', 'a.')] * 4 + [
        open_namespace('b.', 'a.'), open_namespace('a.', 'a.'), open_namespace('a.', 'b.'), names('a.'), alias('x', 'a.', 'b.'), open_namespace('a.', 'z.z.'),
        find('a.b.c.'), names('')]),
    'deep': (lent(), [
        name(DEEP, 'b', 1), names(''), find(DEEP + 'b.'), name(DEEP + 'a.', 'b', 1), name(DEEP + 'a.a.', 'b', 1), alias('x', DEEP, 'a.'),
        open_namespace('b.', ''), open_namespace('b.', 'a.'), open_module('b.' * 17, 'a.'), include('b.' * 17, 'a.'), open_namespace('b.' * 17, ''),
        module(1, DEEP + 'a.', 'x'), module(1, DEEP + 'a.a.', 'x'), modules('')]),
    'full': (lent(4, 800), [name('a.', 'b', 1)] + EVERY_CALL),
    'text-full': (lent(120, 4), [name('', 'a', 1), name('Saved.', 'offs', 1)] + EVERY_CALL),
    'refused': (lent(), [
        name('a', 'b', 1), name('a.', '', 1), name('..', 'b', 1), name('a.', 'b', 4), name('a.', LONG, 1), include('a', 'b.'), include('..', 'b.'),
        include(LONG + '.', ''), open_namespace('a', ''), open_namespace('', '.'), open_namespace('', LONG + '.'), open_module('a', ''), open_module('.', ''),
        open_module('', LONG + '.'), alias('', 'a.', 'b.'), alias('a.', 'a.', 'b.'), alias(LONG, '', ''), module(1, 'a', 'x'), module(1, '.', 'x')]),
    'refused-too': (lent(), [
        module(1, LONG + '.', ''), find(''), find('a'), find('.'), find(LONG + '.'), find('.' * 18), names('a'), names(LONG + '.'), names('.' * 18),
        modules('a'), modules(LONG + '.'), modules('.' * 18), name('', 'a', 1), names('', 0, 0), modules('', 0, 0)]),
    'no-room': (lent(lines=2, out=10), FOUR + [
        names(''), names('Live.o.'), names('', 1), names('', 0, 1), names('', 0, 3), module(1, 'a.b.c.', 'x'), modules(''), modules('a.', 1),
        modules('', 0, 2), modules('', 0, 255)]),
    'damaged': (lent(), FOUR + [poke(True, 0, 99)] + EVERY_CALL + [poke(True, 0, 1), names(''), poke(False, 8, 255)] + EVERY_CALL),
    'short-state': (lent(state=12), EVERY_CALL),
}


def main(folder):
    os.makedirs(folder + '/seeds', exist_ok=True)
    tokens = {}
    for title, (room, commands) in SCRIPTS.items():
        whole = room + b''.join(commands)
        assert len(whole) <= INPUT, (title, len(whole))
        with open(f'{folder}/seeds/{title}', 'wb') as f:
            f.write(whole)
        for k, c in enumerate(commands):
            tokens.setdefault(c, f'{title.replace("-", "_")}_{k}')
    with open(folder + '/screen.dict', 'w', encoding='utf-8') as f:
        for c, title in tokens.items():
            if len(c) <= 64:
                f.write(f'{title}="' + ''.join(f'\\x{b:02x}' for b in c) + '"\n')


main(sys.argv[1])
