#!/usr/bin/env python3
"""A problem in the layout that the command print_problem reads.

  problem.py M2              writes the marked case M2 (M1 to M10) on standard output
  problem.py FILE.json       writes the problem that FILE.json describes, a JSON object:
      "nodes":  a list of records, each a kind and up to four operands, [kind, a, b, c, d]
      "bits":   a list of 0 and 1
      "side", "roots": lists of numbers
      "vars":   a list of [name, node, width]
      "arrays": a list of [name, index width, value width]
      "funcs":  a list of [name, width]
    What is left out is empty. Names are written in UTF-8.
"""
import json
import struct
import sys

INPUTS = ['nodes', 'bits', 'side', 'roots', 'names', 'name_start', 'name_len', 'var_node', 'var_width',
          'anames', 'aname_start', 'aname_len', 'index_width', 'value_width', 'fnames', 'fname_start', 'fname_len', 'func_width']
SIZES = [1, 1, 8, 8, 1, 8, 8, 8, 8, 1, 8, 8, 8, 8, 1, 8, 8, 8]
LIMITS = [34816, 131072, 8192, 256, 16384, 512, 512, 512, 512, 16384, 512, 512, 512, 512, 16384, 512, 512, 512]


def layout(inputs):
    """The eighteen inputs, lists of numbers, as bytes."""
    parts = []
    for elements, size in zip(inputs, SIZES):
        parts.append(struct.pack('<Q', len(elements)))
        parts.append(bytes(elements) if size == 1 else struct.pack('<%dQ' % len(elements), *elements))
    return b''.join(parts)


def record(kind, *operands):
    return list(struct.pack('<BIIII', kind, *(list(operands) + [0] * (4 - len(operands)))))


def table(names):
    """An arena with the names, and where each starts and how long it is."""
    arena, starts, lens = [], [], []
    for name in names:
        name = name.encode('utf-8')
        starts.append(len(arena))
        lens.append(len(name))
        arena += list(name)
    return arena, starts, lens


def problem(p):
    vs, arrays, funcs = p.get('vars', []), p.get('arrays', []), p.get('funcs', [])
    names, ns, nl = table([v[0] for v in vs])
    anames, as_, al = table([a[0] for a in arrays])
    fnames, fs, fl = table([f[0] for f in funcs])
    return [sum((record(*r) for r in p.get('nodes', [])), []), p.get('bits', []), p.get('side', []), p.get('roots', []),
            names, ns, nl, [v[1] for v in vs], [v[2] for v in vs], anames, as_, al, [a[1] for a in arrays],
            [a[2] for a in arrays], fnames, fs, fl, [f[1] for f in funcs]]


def bits(n, width):
    return [n >> i & 1 for i in range(width)]


def summed(constant=5, kind=2, right=0, root=3, name='x'):
    """M2: x of width 8, an 8-bit constant, their sum, and that it equals x; with other parts for the cases made from it."""
    return {'nodes': [[0, 8], [1, 0, 8], [kind, 0, 1], [19, 2, right]], 'bits': bits(constant, 8), 'roots': [root],
            'vars': [[name, 0, 8]]}


MARKED = {
    'M1': {},
    'M2': summed(),
    'M3': summed(),      # M3 is M2 with a buffer of 102 bytes, which the command has not
    'M4': summed(right=2),
    'M5': summed(root=0),
    'M6': summed(name='bvadd'),
    'M7': summed(root=4),
    'M8': summed(constant=11, kind=34),
    'M9': {'funcs': [['f', 8]]},
    'M10': {'nodes': [[1, 0, 32], [37, 9, 0, 0, 0]], 'bits': [0] * 32},
}


if __name__ == '__main__':
    if len(sys.argv) != 2:
        raise SystemExit(__doc__)
    word = sys.argv[1]
    described = MARKED[word] if word in MARKED else json.load(open(word))
    sys.stdout.buffer.write(layout(problem(described)))
