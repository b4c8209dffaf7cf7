#!/usr/bin/env python3
"""The model of document 02's request L5: the Rust with an array's two widths as parameters.

  by_table.py FOLDER OUT

FOLDER holds the unchanged Rust, and OUT becomes a copy of it in which the numerals 32 and 8 that are widths of an array come from
compare/model/arrays.rs: five numerals in four functions, which are found by the functions' names. Anything that is not there exactly
as often as it has to be is an error. None of the Rust's text is kept in this repository.
"""
import os
import re
import shutil
import sys


def body(text, name):
    """Where the body of the function with this name begins and ends."""
    heads = list(re.finditer(r'^(?:pub )?fn %s\b[^{]*\{\n' % name, text, re.M))
    if len(heads) != 1:
        raise SystemExit('fn %s is there %d times' % (name, len(heads)))
    return heads[0].end(), text.index('\n}\n', heads[0].end()) + 1


def changed(text, name, pattern, by):
    """The text with the one occurrence of a pattern in the body of a function replaced."""
    start, end = body(text, name)
    new, n = re.subn(pattern, lambda _: by, text[start:end])
    if n != 1:
        raise SystemExit('%s is in fn %s %d times' % (pattern, name, n))
    return text[:start] + new + text[end:]


def preceded(text, name, by):
    """The text with a statement before the body of a function."""
    start, _ = body(text, name)
    return text[:start] + by + text[start:]


def main(source, out):
    shutil.copytree(source, out, dirs_exist_ok=True)
    here = os.path.dirname(os.path.abspath(__file__))
    shutil.copy(os.path.join(here, 'model', 'arrays.rs'), os.path.join(out, 'arrays.rs'))

    path = os.path.join(out, 'sliver_kernel.rs')
    text = open(path).read()
    index, value = r'\b32\b', r'\b8\b'
    at = '    if let ExtNode::Select(array, ..) = node {\n        crate::arrays::at(array);\n    }\n'
    text = changed(text, 'chain_wf', index, 'crate::arrays::index()')
    text = changed(text, 'chain_wf', value, 'crate::arrays::value()')
    text = changed(text, 'ext_node_wf', index, 'crate::arrays::index()')
    text = changed(text, 'ext_node_width', value, 'crate::arrays::value()')
    text = preceded(text, 'ext_node_wf', at)
    text = preceded(text, 'ext_node_width', at)
    open(path, 'w').write(text)

    path = os.path.join(out, 'echo_kernel.rs')
    text = open(path).read()
    text = changed(text, 'decl_arrays', r'\w+\(out, b"[^"]*\b32\b[^"]*\b8\b[^"]*"\);', 'out.extend_from_slice(&crate::arrays::sorts(k));')
    open(path, 'w').write(text)

    path = os.path.join(out, 'kernel.rs')
    open(path, 'a').write('\n#[path = "arrays.rs"]\npub mod arrays;\n')


if __name__ == '__main__':
    if len(sys.argv) != 3:
        raise SystemExit(__doc__)
    main(*sys.argv[1:])
