#!/usr/bin/env python3
"""Runs what README.md and docs/guide.md show, in a new folder, and compares what is printed.

    checks/pasted.py [PROGRAM]   PROGRAM is the built program: crates/isotope/out/isotope, which rt ci leaves, or build/isotope

Run are: in a block, each command after `$ `, with what follows as its output; a block that is one `./isotope` command with its input, with
the next block as its output; a block of Python, which has to end well; and a block of C with a `main`, which is compiled over
c/out/libisotope.a, and has to end well. Where c/out is not built, these two are passed over, with a line that says so.
"""
import os
import re
import shutil
import subprocess
import sys
import tempfile
from pathlib import Path

TOP = Path(__file__).resolve().parent.parent

# compiles and runs a program
OVER_C = f'printf %s "$1" > pasted.c && cc pasted.c -I {TOP}/c {TOP}/c/out/libisotope.a -pthread -o pasted && ./pasted'


def program():
    places = [Path(word) for word in sys.argv[1:2]] or [TOP / 'crates/isotope/out/isotope', TOP / 'build/isotope']
    return next((place.resolve() for place in places if place.is_file()), None)


def blocks(page):
    """The blocks of a page: the line where each begins, its language, and its lines."""
    found, inside = [], None
    for number, line in enumerate((TOP / page).read_text().split('\n'), 1):
        if line.startswith('```'):
            if inside is None:
                inside = (number + 1, line[3:], [])
            else:
                found.append(inside)
                inside = None
        elif inside is not None:
            inside[2].append(line)
    return found


def commands(lines):
    """The commands of a block, each with its output: a command begins with `$ `, and goes on to END where it has an input of its own."""
    found, at = [], 0
    while at < len(lines):
        command = [lines[at][2:]]
        at += 1
        if command[0].endswith("<<'END'"):
            while command[-1] != 'END':
                command.append(lines[at])
                at += 1
        output = []
        while at < len(lines) and not lines[at].startswith('$ '):
            output.append(lines[at])
            at += 1
        found.append(('\n'.join(command), output))
    return found


def steps(page):
    """What is run of a page: where it is, the words of the command, and its output, if one is shown."""
    all_blocks = blocks(page)
    for at, (number, language, lines) in enumerate(all_blocks):
        if language == 'python':
            yield number, [sys.executable, '-c', '\n'.join(lines)], None
        elif language == 'c' and any(line.startswith('int main') for line in lines):
            yield number, ['bash', '-c', OVER_C, 'bash', '\n'.join(lines)], None
        elif lines and lines[0].startswith('$ '):
            for command, output in commands(lines):
                yield number, ['bash', '-c', command], output
        elif lines and lines[0].startswith('./isotope') and lines[-1] == 'END':
            text = re.sub(r'^\./isotope', 'isotope', '\n'.join(lines))
            yield number, ['bash', '-c', text], all_blocks[at + 1][2]


def main():
    isotope = program()
    if isotope is None:
        print('checks/pasted.py: there is no program; rt ci and ./isotope build it')
        return 1
    wrong = count = 0
    with tempfile.TemporaryDirectory() as folder:
        tools = Path(folder, 'bin')
        tools.mkdir()
        shutil.copy(isotope, tools / 'isotope')
        environment = dict(os.environ, PATH=f'{tools}:{os.environ["PATH"]}', PYTHONPATH=str(TOP / 'python'))
        library = TOP / 'c/out/libisotope.so'
        for page in ['README.md', 'docs/guide.md']:
            work = Path(folder, page.replace('/', '-'))
            work.mkdir()
            for number, words, output in steps(page):
                if not library.exists() and ('import isotope' in words[2] or words[2] == OVER_C):
                    print(f'{page}:{number}: passed over, c/out is not built')
                    continue
                count += 1
                run = subprocess.run(words, cwd=work, env=environment, capture_output=True, text=True, timeout=60)
                found = run.stdout.rstrip('\n').split('\n') if run.stdout else []
                if run.returncode != 0 or (output is not None and found != output):
                    wrong += 1
                    print(f'{page}:{number}: status {run.returncode}, printed:', *found, run.stderr.rstrip('\n'), sep='\n    ')
    print(f'{count} commands of README and guide: {wrong} went wrong')
    return 1 if wrong else 0


sys.exit(main())
