#!/usr/bin/env python3
"""Drawn calls on files, on a tree store and on a hash store, with the replies that a plain map gives: the cases of `drawn-*.cases`.

    checks/drawn_cases.py           says whether the files are what is drawn here, and ends with 1 where they are not
    checks/drawn_cases.py --write   writes them

Nothing here comes from the program: the files are a dictionary of bytes, the tree store is a dictionary.
"""
import sys
from pathlib import Path

DATA = Path(__file__).resolve().parent.parent / 'crates' / 'case_tests' / 'data'
HEAD = '# Drawn calls, against a plain map. Written by checks/drawn_cases.py, which has the map.'


def drawn(last):
    """The next number of a row that looks random."""
    return (last * 1103515245 + 12345) % 2**32


class Files:
    """Files by name. A call gives its reply."""

    def __init__(self, files=None):
        self.files = dict(files or {})
        self.wrote = False

    def change(self, reply='ok'):
        self.wrote = True
        return reply

    def create(self, name):
        if name in self.files:
            return 'exists'
        self.files[name] = b''
        return self.change()

    def remove(self, name):
        return 'ok none' if self.files.pop(name, None) is None else self.change()

    def rename(self, old, new):
        if old not in self.files:
            return 'ok none'
        if new in self.files:
            return 'exists'
        self.files[new] = self.files.pop(old)
        return self.change()

    def write(self, name, off, data):
        if name not in self.files:
            return 'ok none'
        own = self.files[name]
        if off > len(own):
            return 'bad-range'
        self.files[name] = own[:off] + data + own[off + len(data):]
        return self.change()

    def read(self, name, off, count):
        if name not in self.files:
            return 'ok none'
        own = self.files[name]
        if off > len(own):
            return 'bad-range'
        return 'ok ' + (own[off:off + count].hex() or '-')


def call_on_files(files, number):
    """A drawn call as a line has it, and the reply to it."""
    place, byte, off = (number >> 16) % 4, (number >> 18) % 256, (number >> 8) % 600
    name, kind = f'{97 + place:02x}', (number >> 26) % 8
    if kind == 0:
        return f'fnew {name}', files.create(name)
    if kind == 1:
        return f'fdel {name}', files.remove(name)
    if kind == 2:
        new = f'{97 + byte % 4:02x}'
        return f'fmove {name} {new}', files.rename(name, new)
    if kind <= 5:
        data = bytes([byte]) * (1 + byte)
        return f'fwrite {name} {off} {data.hex()}', files.write(name, off, data)
    return f'fread {name} {off} {1 + 2 * byte}', files.read(name, off, 1 + 2 * byte)


def row(line, reply):
    return f'  1 {line} -> 1 {reply}'


def shown(files, commits):
    """Rows that read the files of all names."""
    yield row('begin', f'ok begin {commits}')
    for name in ('61', '62', '63', '64'):
        yield row(f'fread {name} 0 1024', files.read(name, 0, 1024))
    yield row('abort', 'ok')


def case_of_files():
    """Twelve transactions of 25 drawn calls, of which every third one is aborted, and what each leaves."""
    yield 'case drawn_calls_on_files_agree_with_a_plain_map'
    yield 'isotope new t.img --block-size 256 --blocks 64 --log 1048576 --tree 4'
    last, commits, number = Files(), 0, 1
    for place in range(12):
        mine = Files(last.files)
        yield row('begin', f'ok begin {commits}')
        for _ in range(25):
            number = drawn(number)
            yield row(*call_on_files(mine, number))
        if place % 3 == 2:
            yield row('abort', 'ok')
        else:
            commits += mine.wrote
            yield row('end', f'ok commit {commits}' if mine.wrote else 'ok read-only')
            last = mine
        yield from shown(last, commits)
    yield 'isotope run t.img'
    yield from shown(last, commits)


def pairs(plain, first, last, most):
    """What a scan answers."""
    found = [f'{key:02x}={plain[key]:02x}' for key in sorted(plain) if first <= key < last]
    return 'ok ' + (' '.join(found[:most]) or 'none')


def value_of(plain, key):
    return f'ok {plain[key]:02x}' if key in plain else 'ok none'


def call_on_tree(plain, number):
    """A drawn call as a line has it, and the reply to it."""
    key, value = (number >> 16) % 32, (number >> 8) % 256
    if value % 8 == 0:
        return f'tdel {key:02x}', 'ok' if plain.pop(key, None) else 'ok none'
    if value % 8 == 1:
        most = 1 + value // 16
        return f'tscan {key:02x} 20 {most}', pairs(plain, key, 32, most)
    if value % 8 == 2:
        return f'tget {key:02x}', value_of(plain, key)
    plain[key] = value
    return f'tput {key:02x} {value:02x}', 'ok'


def case_of_tree():
    """200 drawn calls on a tree store that is not the first region, and all that it has then, and its level: three levels or more."""
    yield 'case drawn_calls_on_a_tree_agree_with_a_plain_map'
    yield 'isotope new t.img --block-size 256 --blocks 42 --log 1048576 --hash 3 --tree 39'
    plain, number = {}, 1
    yield row('begin', 'ok begin 0')
    for _ in range(200):
        number = drawn(number)
        yield row(*call_on_tree(plain, number))
    for key in range(32):
        yield row(f'tget {key:02x}', value_of(plain, key))
    yield row('tscan 00 20 40', pairs(plain, 0, 32, 40))
    yield row('end', 'ok commit 1')
    yield 'isotope run t.img'
    yield row('begin', 'ok begin 1')
    yield row('tscan 00 20 40', pairs(plain, 0, 32, 40))
    yield row('get 3 4 4', 'ok 00000002')
    for level in (3, 4, 5):
        yield 'or'
        for reply in ('ok begin 1', pairs(plain, 0, 32, 40), f'ok {level:08x}'):
            yield f'  -> 1 {reply}'


def call_on_hash(plain, number):
    """A drawn call as a line has it, and the reply to it."""
    key, value = f'6{1 + (number >> 24) % 9}', 1 + (number >> 8) % 9
    kind = number >> 16 & 7
    if kind <= 2:
        plain[key] = value
        return f'hput {key} {value:02x}', 'ok'
    if kind <= 4:
        return f'hdel {key}', 'ok' if plain.pop(key, None) else 'ok none'
    return f'hget {key}', value_of(plain, key)


def rows_of_hash(number):
    """Eighteen transactions of 24 drawn calls, of which every other one is aborted."""
    plain, commits = {}, 0
    for place in range(18):
        mine = dict(plain)
        yield row('begin', f'ok begin {commits}')
        for _ in range(24):
            number = (number * 1664525 + 1013904223) % 2**32
            yield row(*call_on_hash(mine, number))
        if place % 2:
            yield row('abort', 'ok')
        else:
            plain, commits = mine, commits + 1
            yield row('end', f'ok commit {commits}')


def cases_of_hashes():
    """Four scripts on one bucket of three cells and two overflow blocks, whose keys fill a chain of three blocks, and on twenty buckets."""
    for seed in range(4):
        for name, words in (('a_chain', '--blocks 8 --log 65536 --hash 4'), ('twenty_buckets', '--blocks 64 --log 65536 --hash 41')):
            yield f'case drawn_calls_on_{name}_agree_with_a_plain_map_{seed}'
            yield f'isotope new t.img --block-size 256 {words}'
            yield from rows_of_hash(seed)


def main():
    status = 0
    for name, lines in (('files', case_of_files()), ('hashes', cases_of_hashes()), ('trees', case_of_tree())):
        path, text = DATA / f'drawn-{name}.cases', '\n'.join([HEAD, '', *lines]) + '\n'
        if '--write' in sys.argv[1:]:
            path.write_text(text)
        elif path.read_text() != text:
            print(f'{path.name} is not what checks/drawn_cases.py draws')
            status = 1
    return status


sys.exit(main())
