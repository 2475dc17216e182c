#!/usr/bin/env python3
"""The blocks of the library's code.

    blocks.py OBJECT               prints the offset of each block's beginning and its function
    blocks.py BLOCKS REACHED...    how many blocks each function has, and how many of them some run reached
"""
import re
import subprocess
import sys

JUMP = re.compile(r'^(j\w+|ret\w*|ud2|hlt)\b')
DIRECT = re.compile(r'^j\w+\s+([0-9a-f]+)\b')
PADDING = re.compile(r'^(nop|xchg\s+%ax,%ax|data16|cs nop|int3)')


def blocks(path):
    text = subprocess.run(['objdump', '-d', '--no-show-raw-insn', '-j', 'lanyardrove_text', path], capture_output=True, text=True, check=True).stdout
    lines, begins, function, fresh = {}, set(), {}, True
    name = None
    for line in text.splitlines():
        if found := re.match(r'^([0-9a-f]+) <(.*)>:$', line):
            name, fresh = found[2], True
        elif found := re.match(r'^\s*([0-9a-f]+):\s+(.*)$', line):
            at, what = int(found[1], 16), found[2]
            lines[at], function[at] = what, name
            if PADDING.match(what):
                continue
            if fresh:
                begins.add(at)
            fresh = bool(JUMP.match(what))
            if direct := DIRECT.match(what):
                begins.add(int(direct[1], 16))
    for at in sorted(begins):
        if at in lines and not PADDING.match(lines[at]):
            print(f'{at:x} {function[at]}')


def reached(path, runs):
    seen = {line.strip() for run in runs for line in open(run)}
    functions = {}
    for line in open(path):
        at, name = line.rstrip('\n').split(' ', 1)
        functions.setdefault(name, []).append(at)
    whole = hit = 0
    for name, begins in functions.items():
        missed = [at for at in begins if at not in seen]
        whole += len(begins)
        hit += len(begins) - len(missed)
        print(f'{len(begins) - len(missed):5} of {len(begins):5}  {name}' + (f'  not: {" ".join(missed[:12])}' if missed else ''))
    print(f'{hit:5} of {whole:5}  in all')


if len(sys.argv) == 2:
    blocks(sys.argv[1])
else:
    reached(sys.argv[1], sys.argv[2:])
