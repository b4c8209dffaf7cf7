#!/usr/bin/env python3
"""Runs the command read_problem on recorded scripts and compares what it writes with the recorded problems; what it read, print_problem
must print as the same script.

  try_read_problem.py READ_PROBLEM PRINT_PROBLEM READS [PRINTER]

READS is the file reads.bin of the crate replay_reads, PRINTER the file printer.bin of the crate replay_problems (docs/RECORDED.md). Of the
second the recorded scripts of accepted problems are read and printed again. The recorded number 10 is for outputs that were lent too short,
and does not occur here. A script that is longer or nested more deeply than the command reads is told as such.
"""
import struct
import subprocess
import sys

from problem import SIZES
from try_command import packed, recorded

LONGEST, DEEPEST = 2097152, 6146
NAMES = {9: b'refused: 9 Limit: ', 13: b'refused: 13 NoScript: '}


def run(program, data):
    return subprocess.run([program], input=data, stdout=subprocess.PIPE, check=True).stdout


def depth(script):
    """The most brackets that are open at once, those between bars left out."""
    most = now = 0
    for k, piece in enumerate(script.split(b'|')):
        if k % 2 == 0:
            for byte in piece:
                now = now + 1 if byte == 40 else max(now - 1, 0) if byte == 41 else now
                most = max(most, now)
    return most


def problem_of(s, head):
    nodes, bits, side, roots, names, v, anames, a, fnames, f = head[20:]
    problem, place = b'', 120 + head[0]
    for count, size in zip((nodes, bits, side, roots, names, v, v, v, v, anames, a, a, a, a, fnames, f, f, f), SIZES):
        problem += struct.pack('<Q', count) + s[place:place + count * size]
        place += count * size
    return problem


def main(read, print_, reads, *printer):
    counts = {'read': 0, 'printed again': 0, 'refused': 0, 'not read': 0, 'wrong': 0}

    def check(what, script, holds):
        counts['wrong'] += not holds
        if not holds:
            print(what, script[:200])

    def back(script, out):
        counts['read'] += 1
        counts['printed again'] += 1
        check('printed again', script, run(print_, out) == script)

    for s in packed(reads, b'READS  1'):
        head = struct.unpack_from('<30I', s)
        script, number = s[120:120 + head[0]], head[19]
        out = run(read, script)
        if len(script) > LONGEST or depth(script) > DEEPEST:
            counts['not read'] += 1
            check('not read', script, out.startswith(b'input: too large: ' if len(script) > LONGEST else b'input: too deep: '))
        elif number in NAMES:
            counts['refused'] += 1
            check('refused', script, out.startswith(NAMES[number]) and out.endswith(b'\n') and out.count(b'\n') == 1)
        else:
            check('read', script, number == 10 or out == problem_of(s, head))
            back(script, out)
    for path in printer:
        for _, _, number, script in recorded(path):
            if number == 0:
                out = run(read, script)
                if out.startswith(b'refused: 9 '):
                    counts['refused'] += 1
                else:
                    back(script, out)
    print(', '.join('%s %d' % entry for entry in counts.items()))
    return counts['wrong'] != 0


if __name__ == '__main__':
    if len(sys.argv) < 4:
        sys.exit(__doc__)
    sys.exit(main(*sys.argv[1:]))
