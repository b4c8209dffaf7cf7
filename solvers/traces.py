#!/usr/bin/env python3
"""Asks the solvers that are installed about rows of traces, and compares what they say with the masks.

    traces.py FOLDER [SECONDS]

FOLDER has scripts NUMBER-sat.smt2 and NUMBER-unsat.smt2, as `compare/record.sh FOLDER --rows OUT` writes them: a problem's script with the values of one row
asserted too, `sat` where the row's mask has every root. Exit status 1 where a solver says something else, or prints an error.
"""
import os
import shutil
import subprocess
import sys


def ask(solver, path, seconds):
    command = {"z3": ["z3", f"-T:{seconds}", path], "cvc5": ["cvc5", f"--tlimit={1000 * seconds}", path]}[solver]
    done = subprocess.run(command, capture_output=True, text=True)
    said = (done.stdout + done.stderr).strip()
    return said if said in ("sat", "unsat") else "error: " + said[:200] if "error" in said else "none"


def main():
    folder, seconds = sys.argv[1], int(sys.argv[2]) if len(sys.argv) > 2 else 10
    solvers = [s for s in ("z3", "cvc5") if shutil.which(s)]
    if not solvers:
        sys.exit("no solver is installed")
    tally, wrong = {}, 0
    for name in sorted(os.listdir(folder)):
        wanted = name.removesuffix(".smt2").split("-")[1]
        for s in solvers:
            said = ask(s, os.path.join(folder, name), seconds)
            tally[s, wanted, said] = tally.get((s, wanted, said), 0) + 1
            if said not in (wanted, "none"):
                wrong += 1
                print(f"{name}: {s}: {said}")
    for (s, wanted, said), n in sorted(tally.items()):
        print(f"{s}: wanted {wanted}, said {said}: {n}")
    print(f"differences {wrong}")
    sys.exit(1 if wrong else 0)


main()
