#!/usr/bin/env python3
"""Reads the files of cases for lines that ask nothing, and the sums of each file in `stdout`.

    checks/cases.py           says what is wrong, and ends with 1 where anything is
    checks/cases.py --sums    prints the sums that the files have, as `crates/case_tests/stdout` has to have them
"""
import re
import sys
from pathlib import Path

CRATE = Path(__file__).resolve().parent.parent / 'crates' / 'case_tests'

# lines that say something only of a call that is made again and again
OF_EACH = {'shows', 'step', 'reached', 'then', 'lasting', 'from'}


class Call:
    """A call with the lines below it: the first word of each, and where it stands."""

    def __init__(self, number, line):
        self.number, self.line, self.words, self.replies, self.behind_then = number, line, {}, 0, False
        self.is_mirror = any(word.endswith('+') for word in line.split())

    def mistakes(self):
        """Lines of this call that ask nothing."""
        is_each = any(word.startswith('at each') for word in self.words)
        if not is_each:
            for word in OF_EACH & set(self.words):
                yield self.words[word], f'`{word}` asks nothing without `at each`'
        elif self.is_mirror:
            for word in {'calls', 'status'} & set(self.words):
                yield self.words[word], f'`{word}` is not asked of a mirror at each stop'
        if 'every' in self.words and 'then' not in self.words:
            yield self.words['every'], '`every` is of a second call'
        if 'step' in self.words and 'shows' not in self.words:
            yield self.words['step'], 'no rows show this step'
        if is_each and 'shows' not in self.words:
            yield self.words['at each'], 'no rows show the images'


class File:
    def __init__(self, path):
        self.path, self.cases, self.calls, self.replies, self.call, self.wrong = path, 0, 0, 0, None, []

    def say(self, number, what):
        self.wrong.append(f'{self.path.name}:{number}: {what}')

    def end_call(self):
        if self.call:
            for number, what in self.call.mistakes():
                self.say(number, what)
        self.call = None

    def read_row(self, number, row):
        if ' -> ' in row or row.startswith('-> '):
            self.replies += 1
            if self.call and self.call.behind_then:
                self.say(number, 'what a second call answers is not asked')

    def read(self, lets):
        for number, line in enumerate(self.path.read_text().split('\n'), 1):
            if line.startswith('  '):
                self.read_row(number, line[2:])
                continue
            if not line or line.startswith('#'):
                continue
            word, _, rest = line.partition(' ')
            if word == 'let':
                name = rest.split(' ', 1)[0]
                if name in lets:
                    self.say(number, f'{name} has a meaning already')
                lets.add(name)
            elif word == 'case':
                self.end_call()
                self.cases += 1
            elif word in ('isotope', 'words', 'refused'):
                self.end_call()
                self.calls += 1
                self.call = Call(number, line)
            elif self.call:
                key = 'at each' if line.startswith('at each') else word
                self.call.words.setdefault(key, number)
                if word == 'then':
                    self.call.behind_then = True
                elif word == 'shows':
                    self.call.behind_then = False
        self.end_call()

    def sums(self):
        return f'{self.path.name}: {self.cases} cases, {self.calls} calls, {self.replies} replies'


def main():
    files, lets = [], set()
    for name in (CRATE / 'args').read_text().split():
        file = File(CRATE / 'data' / name)
        file.read(lets)
        files.append(file)
    lines = [file.sums() for file in files]
    lines.append(f'{sum(file.cases for file in files)} cases, 0 failed')
    if '--sums' in sys.argv[1:]:
        print('\n'.join(lines))
        return 0
    wrong = [line for file in files for line in file.wrong]
    said = (CRATE / 'stdout').read_text().split('\n')[:-1]
    wrong += [f'stdout: wanted: {line}' for line in lines if line not in said]
    left = {path.name for path in (CRATE / 'data').glob('*.cases')} - {file.path.name for file in files}
    wrong += [f'{name} is not among the words in args' for name in sorted(left)]
    print('\n'.join(wrong) if wrong else f'{len(files)} files of cases: each line asks something')
    return 1 if wrong else 0


sys.exit(main())
