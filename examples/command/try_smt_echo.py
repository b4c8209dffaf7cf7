#!/usr/bin/env python3
"""Runs smt-echo on every entry of recorded lists and compares what it does with the recorded answers.

  try_smt_echo.py PROGRAM LIST ..      a LIST is a file crates/replay_*/data/*.bin (docs/RECORDED.md): the printer's, the hidden scripts',
                                       the scripts' with let, the formulas', the sizes', the fewest roots', the traces', the scripts' that
                                       are read back or the releases'

Of an accepted problem the result is compared; of a refused one the number, and something to look at must be told. What is recorded with 10
has a result here, since the command sets aside as much as it needs. Each problem of the printer's list is also shown as text and read back:
the binary layout must be the one begun with, and the text must be the same again. A trace is handed over as CSV, its columns in the
opposite order; one whose values are no whole number of rows has no CSV and is left out. What a script is read as is also printed again. A
script that is nested too deeply, or longer than 1 MB or 2,000 lines, may have nothing to look at. A release is handed over as one
file and, cut at some byte, as two; what to look at must name the recorded script, and for 17 two lines of that name that differ, the one of
them in a script before it.
"""
import os
import re
import struct
import subprocess
import sys
import tempfile

from problem import SIZES, layout
from try_command import packed, recorded

WORDS = {b'PRINTER2': ['print'], b'HIDDEN 2': ['print', '--hidden'], b'LET    2': ['print', '--let'], b'FORMULA2': ['formulas'],
         b'SIZES  2': ['size'], b'FEWEST 1': ['fewest'], b'TRACES 1': ['replay'], b'READS  1': ['read'], b'RELEASE1': ['release']}


class Tally:
    def __init__(self, path):
        self.path, self.tried, self.left, self.wrong, self.numbers = path, 0, 0, 0, {}

    def check(self, what, holds):
        if not holds:
            self.wrong += 1
            print('%s, entry %d: %s' % (self.path, self.tried - 1, what))

    def refused(self, number, ran):
        status, out, told = ran
        holds = status == 1 and out == b'' and len(told) == 2 and told[0].startswith('refused: %d ' % number)
        self.check('refused with %d: %s' % (number, told), holds and told[1].startswith('look at: ') and len(told[1]) > 20)

    def entry(self, number):
        self.tried += 1
        self.numbers[number] = self.numbers.get(number, 0) + 1


def run(program, words, data):
    done = subprocess.run([program, *words], input=data, stdout=subprocess.PIPE, stderr=subprocess.PIPE)
    return done.returncode, done.stdout, done.stderr.decode('utf-8', 'replace').splitlines()


def problems(program, title, tally):
    for inputs, room, number, result in recorded(tally.path, title):
        tally.entry(number)
        data = layout(inputs)
        ran = status, out, told = run(program, WORDS[title], data)
        if title == b'FEWEST 1':
            places = b''.join(b' %d' % place for place in struct.unpack('<%dQ' % (len(result) // 8), result))
            tally.check('told', ran == (0, b'number %d\nroots%s\n' % (number, places), []))
        elif number not in (0, 10):
            tally.refused(number, ran)
        elif title == b'SIZES  2':
            tally.check('terms', status == 0 and told == [] and out.split()[3] == b'%d' % struct.unpack('<Q', result))
        else:
            tally.check('written', status == 0 and told == [] and (out == result if number == 0 else len(out) > room))
        if title == b'PRINTER2':
            text = run(program, ['show'], data)[1]
            back = run(program, ['show', '--binary'], text)[1]
            tally.check('shown and read back', back == data and run(program, ['show'], back)[1] == text)


def traces(program, tally, csv):
    small = [k for k in range(18) if SIZES[k] == 1]
    large = [k for k in range(18) if SIZES[k] == 8]
    for s in packed(tally.path, b'TRACES 1'):
        head = struct.unpack_from('<23I', s)
        count, number, rows = head[18], head[21], head[22]
        inputs, place = [None] * 18, 92
        for k, n in zip(small, head):
            inputs[k] = list(s[place:place + n])
            place += n
        numbers = struct.unpack('<%dQ' % ((len(s) - place) // 8), s[place:])
        place = 0
        for k, n in zip(large, head[5:]):
            inputs[k] = list(numbers[place:place + n])
            place += n
        values, masks = numbers[place:place + count], numbers[place + count:place + count + rows]
        tally.entry(number)
        variables = len(inputs[5])
        if number in (0, 10, 15):
            if count % variables != 0 if variables else count != 0:
                tally.left += 1
                continue
            names = [bytes(inputs[4][a:a + n]).replace(b'"', b'""') for a, n in zip(inputs[5], inputs[6])]
            table = [[b'"%s"' % name for name in names]]
            table += [[b'%d' % v for v in values[at:at + variables]] for at in range(0, count, max(variables, 1))]
            lines = [b','.join(reversed(row)) + b'\n' for row in table if row]
        else:
            lines = []
        with open(csv, 'wb') as to:
            to.writelines(lines)
        ran = status, out, told = run(program, ['replay', '-', csv], layout(inputs))
        if number in (0, 10):
            roots = range(len(inputs[3]))
            fails = [[root for root in roots if not mask >> root & 1] for mask in masks]
            want = ''.join('%d %s%s\n' % (j, 'fails' if f else 'holds', ''.join(' %d' % root for root in f)) for j, f in enumerate(fails))
            tally.check('replayed', status == 0 and told == [] and (number == 10 or out == want.encode()))
        else:
            tally.refused(number, ran)


def reads(program, tally):
    for s in packed(tally.path, b'READS  1'):
        head = struct.unpack_from('<30I', s)
        script, number = s[120:120 + head[0]], head[19]
        nodes, bits, side, roots, names, v, anames, a, fnames, f = head[20:]
        problem, place = b'', 120 + head[0]
        for count, size in zip((nodes, bits, side, roots, names, v, v, v, v, anames, a, a, a, a, fnames, f, f, f), SIZES):
            problem += struct.pack('<Q', count) + s[place:place + count * size]
            place += count * size
        tally.entry(number)
        ran = status, out, told = run(program, ['read'], script)
        if number in (0, 10):
            tally.check('read', status == 0 and told == [] and (number == 10 or out == problem))
            tally.check('printed again', run(program, ['print'], out) == (0, script, []))
            tally.check('printed as it is', run(program, ['print'], script) == (0, script, []))
        elif number in (9, 13) and len(told) == 2:
            tally.refused(number, ran)
        else:
            tally.check('refused with %d: %s' % (number, told), status == 1 and out == b'' and len(told) == 1 and told[0].startswith('refused: %d ' % number))
            tally.check('nothing to look at', len(script) > 1 << 20 or script.count(b'\n') > 2000 or script.count(b'(') > 6146)


def line_of(file, number):
    return file.split(b'\n')[number - 1].decode('utf-8', 'replace')


def releases(program, tally, folder):
    two = [os.path.join(folder, name) for name in ('first.smt2', 'second.smt2')]
    for s in packed(tally.path, b'RELEASE1'):
        length, number, script = struct.unpack_from('<3I', s)
        file = s[12:12 + length]
        tally.entry(number)
        ends = [m.end() for m in re.finditer(rb'(?:(?<=\n)|\A)\(check-sat\)\n', file)]
        at = length * (tally.tried % 7) // 7
        for path, part in zip(two, (file[:at], file[at:])):
            with open(path, 'wb') as to:
                to.write(part)
        ran, parted = run(program, ['release'], file), run(program, ['release', *two], b'')
        if number == 0:
            tally.check('accepted', ran == (0, b'scripts %d\n' % len(ends), []) and parted == ran)
            continue
        tally.refused(number, ran)
        tally.refused(number, parted)
        look = ran[2][-1]
        tally.check('script %d: %s' % (script, look), re.search(r'\bscript %d,' % script, look) is not None)
        if number == 17:
            places = re.findall(r' in script (\d+), standard input:(\d+)', look)
            tally.check('two places: %s' % look, len(places) == 2 and int(places[0][0]) < script == int(places[1][0]))
            lines = [line_of(file, int(line)) for _, line in places]
            names = [re.match(r'\(declare-(?:const|fun) (\|[^|]*\|) ', line) for line in lines]
            tally.check('two lines: %s' % lines, all(names) and names[0][1] == names[1][1] and lines[0] != lines[1])
            starts = [0] + ends
            held = [starts[int(k)] <= sum(map(len, file.splitlines(True)[:int(line) - 1])) < ends[int(k)] for k, line in places]
            tally.check('in their scripts: %s' % look, held == [True, True])
            tally.check('shown', len(lines[0]) > 200 or all(line in look for line in lines))


def main(program, paths):
    wrong = 0
    for path in paths:
        tally = Tally(path)
        title = open(path, 'rb').read(8)
        if title not in WORDS:
            print(path, 'is left out: it is no list of problems, traces, scripts read back or releases')
            continue
        if title == b'TRACES 1':
            with tempfile.TemporaryDirectory() as folder:
                traces(program, tally, os.path.join(folder, 'trace.csv'))
        elif title == b'READS  1':
            reads(program, tally)
        elif title == b'RELEASE1':
            with tempfile.TemporaryDirectory() as folder:
                releases(program, tally, folder)
        else:
            problems(program, title, tally)
        print(path, 'tried', tally.tried, 'left out', tally.left, 'wrong', tally.wrong)
        print('by number', ' '.join('%d: %d' % entry for entry in sorted(tally.numbers.items())))
        wrong += tally.wrong
    return wrong != 0


if __name__ == '__main__':
    if len(sys.argv) < 3:
        raise SystemExit(__doc__)
    raise SystemExit(main(sys.argv[1], sys.argv[2:]))
