#!/usr/bin/env python3
"""Hands scripts with let to the solvers that are installed, and beside each a script without, and compares the answers.

    lets.py FOLDER [SECONDS]           beside each script the same with every let unfolded, by its own text
    lets.py FOLDER SECONDS PLAIN       beside each script that of the same name in the folder PLAIN

FOLDER has scripts NAME.smt2, as scripts.py writes them from the recorded list of the printer with let; `compare/record.sh --copies` writes both
folders, with the Rust's scripts of the problems with their shared parts copied in PLAIN, which have to be the unfolded scripts to the byte. Only
scripts with a let whose unfolded text is short are asked. Exit status 1 where two answers of one solver or those of two solvers differ, a solver
prints an error, a script is not the unfolded one, or nothing could be asked.
"""
import os
import re
import shutil
import subprocess
import sys
import tempfile

LIMIT = 60_000


def read(text):
    """The expressions of a text, as nested lists of tokens."""
    stack = [[]]
    for token in re.findall(r"\(|\)|\|[^|]*\||[^\s()|]+", text):
        if token == "(":
            stack.append([])
        elif token == ")":
            done = stack.pop()
            stack[-1].append(done)
        else:
            stack[-1].append(token)
    return stack[0]


class Long(Exception):
    pass


def unfolded(e, names):
    """The text of an expression in which each bound name is its term."""
    if isinstance(e, str):
        return names.get(e, e)
    if e and e[0] == "let":
        ((name, term),) = e[1]
        return unfolded(e[2], {**names, name: unfolded(term, names)})
    out = "(" + " ".join(unfolded(x, names) for x in e) + ")"
    if len(out) > LIMIT:
        raise Long
    return out


def ask(solver, path, seconds):
    command = {"z3": ["z3", f"-T:{seconds}", path], "cvc5": ["cvc5", f"--tlimit={1000 * seconds}", path]}[solver]
    done = subprocess.run(command, capture_output=True, text=True)
    said = (done.stdout + done.stderr).strip()
    return said if said in ("sat", "unsat") else "error: " + said[:200] if "error" in said else "none"


def main():
    folder, seconds = sys.argv[1], int(sys.argv[2]) if len(sys.argv) > 2 else 2
    copies = sys.argv[3] if len(sys.argv) > 3 else None
    solvers = [s for s in ("z3", "cvc5") if shutil.which(s)]
    tally, wrong, asked = {}, 0, 0
    with tempfile.TemporaryDirectory() as room:
        for name in sorted(os.listdir(folder)):
            path = os.path.join(folder, name)
            with open(path, encoding="latin-1", newline="") as f:
                text = f.read()
            if "(let ((" not in text:
                continue
            try:
                plain = "\n".join(unfolded(e, {}) for e in read(text)) + "\n"
            except (Long, RecursionError):
                continue
            if len(plain) > LIMIT:
                continue
            other = os.path.join(copies or room, name if copies else "plain.smt2")
            if copies:
                with open(other, encoding="latin-1", newline="") as f:
                    if f.read() != plain:
                        wrong += 1
                        print(f"{name}: unfolded it is another script than {other}")
            else:
                with open(other, "w", encoding="latin-1", newline="") as f:
                    f.write(plain)
            asked += 1
            said = set()
            for s in solvers:
                a, b = ask(s, path, seconds), ask(s, other, seconds)
                said |= {a, b} & {"sat", "unsat"}
                tally[s, a, b] = tally.get((s, a, b), 0) + 1
                if a.startswith("error") or b.startswith("error") or ("none" not in (a, b) and a != b):
                    wrong += 1
                    print(f"{name}: {s}: with let {a}, unfolded {b}")
            if len(said) > 1:
                wrong += 1
                print(f"{name}: the solvers contradict each other")
    for (s, a, b), n in sorted(tally.items()):
        print(f"{s}: with let {a}, unfolded {b}: {n}")
    print(f"scripts {asked}, differences {wrong}")
    sys.exit(1 if wrong or not asked or not solvers else 0)


main()
