#!/usr/bin/env python3
"""Hands each script of a folder to each solver that is installed, and reports what they said. `run.sh` has the usage.

A script is handed over twice: to be parsed and sorted only, and then, if that gave no error, to be solved. An answer beside an
error is no answer. Exit status 0; 1 for a failure that is not known or a conflict; 2 if there is no solver, or no script.
"""
import argparse
import collections
import os
import re
import resource
import shutil
import signal
import subprocess
import sys
import tempfile
import time

CHECK = b"(check-sat)\n"

# The commands of each solver to parse and sort only, and to solve. z3 has no option for the first: it gets the script without its
# last line, which is the one that asks.
SOLVERS = {
    "z3": (["z3"], ["z3"]),
    "cvc5": (["cvc5", "--parse-only"], ["cvc5"]),
    "cvc4": (["cvc4", "--parse-only"], ["cvc4"]),
}
NO_PARSE_OPTION = ("z3",)


def numeral(text):
    """The largest numeral of a script."""
    bare = re.sub(rb"\|[^|]*\|", b"||", text)
    return max((int(n) for n in re.findall(rb" ([0-9]+)(?=[ )])", bare)), default=0)


def reach(text):
    """A number that no width in the script is above, whatever the terms are: the widths of all leaves and calls where they stand,
    and all that is added by extensions. Only if it is below 2^32 can no width have been wrapped or clamped."""
    widths = {}
    for name, sort in re.findall(rb"^\(declare-\w+ \|([^|]*)\|(.*)$", text, re.M):
        widths[name] = int(re.findall(rb"BitVec ([0-9]+)\)", sort)[-1])
    total = sum(widths.get(name, 0) for name in re.findall(rb"\|([^|]*)\|", text))
    bare = re.sub(rb"\|[^|]*\|", b"||", text)
    total += sum(int(n) for n in re.findall(rb"_extend ([0-9]+)\)", bare))
    total += sum(map(len, re.findall(rb"#b([01]+)", bare)))
    return max(total, numeral(text))


# The known faults: solver, cause, what an error's text matches, what must hold of the script. docs/SOLVERS.md explains each.
KNOWN = [
    ("z3", "a declared width of 459,730,911 or more", "^Overflow encountered when expanding vector", lambda t: numeral(t) >= 459730911),
    ("z3", "a declared width of 2^32 - 1 ends the process", "^ended by signal 11$", lambda t: b"BitVec 4294967295)" in t),
    ("z3", "a declared width of 2^32 or more", "index is too big to fit in an unsigned", lambda t: numeral(t) >= 2**32),
    ("z3", "an extension by 2^31 or more", "^invalid (zero|sign)_extend application", lambda t: numeral(t) >= 2**31),
    ("z3", "a sum of widths wraps at 2^32", "^invalid extract application", lambda t: reach(t) >= 2**32),
    ("z3", "a function with the name root-obj", "^invalid root-obj", lambda t: b"(declare-fun |root-obj| (" in t),
    ("cvc5", "the name eqrange beside arrays or functions", "`eqrange' is shadowing", lambda t: b" |eqrange| " in t),
    ("cvc5", "a sum of widths wraps at 2^32", "^argument type is not|^high extract index", lambda t: reach(t) >= 2**32),
    ("cvc4", "a sum of widths wraps at 2^32", "^argument type is not|^high extract index", lambda t: reach(t) >= 2**32),
]
# Errors that follow from a declaration that was dropped: known if the error before them is.
FOLLOWS = "^unknown (constant|function)"

# What one run of a solver came to: an answer, `nothing`, or one of the failures; with the texts of its errors.
Said = collections.namedtuple("Said", "what errors")
ANSWERS = ("sat", "unsat", "unknown")
ROWS = (
    ("parsed", "parsed and sorted"),
    ("sat", "sat"),
    ("unsat", "unsat"),
    ("unknown", "unknown"),
    ("time", "out of time"),
    ("memory", "out of memory"),
    ("uncounted", "answer not counted: a width may reach 2^32"),
    ("known", "known fault"),
    ("new", "FAILURE THAT IS NOT KNOWN"),
)


def errors_of(output):
    """The texts of all errors, each cut to its first line, without file, line and column."""
    found = []
    for line in re.findall(r'\(error "([^\n]*)', output):
        line = re.sub(r"^Parse Error: \S*?:\d+\.\d+: |^line \d+ column \d+: ", "", line)
        found.append(re.sub(r'"?\)?$', "", line).strip())
    return found


def say(command, text, seconds, memory):
    """Runs a solver over a script."""

    def limits():
        resource.setrlimit(resource.RLIMIT_AS, (memory, memory))
        resource.setrlimit(resource.RLIMIT_CORE, (0, 0))

    with tempfile.NamedTemporaryFile(suffix=".smt2") as script:
        script.write(text)
        script.flush()
        child = subprocess.Popen(
            command + [script.name],
            stdin=subprocess.DEVNULL,
            stdout=subprocess.PIPE,
            stderr=subprocess.STDOUT,
            preexec_fn=limits,
            start_new_session=True,
        )
        try:
            output = child.communicate(timeout=seconds)[0].decode("utf-8", "replace")
        except BaseException as e:
            os.killpg(child.pid, signal.SIGKILL)
            child.communicate()
            if isinstance(e, subprocess.TimeoutExpired):
                return Said("time", [])
            raise
    if re.search(r"out of memory|bad_alloc", output, re.I):
        return Said("memory", [])
    errors = errors_of(output)
    if errors:
        return Said("error", errors)
    if child.returncode < 0:
        return Said("error", ["ended by signal %d" % -child.returncode])
    lines = [line for line in output.split("\n") if line]
    if child.returncode == 0 and not lines:
        return Said("nothing", [])
    if child.returncode == 0 and len(lines) == 1 and lines[0] in ANSWERS:
        return Said(lines[0], [])
    return Said("error", ["status %d: %s" % (child.returncode, " ".join(lines)[:160])])


def known(solver, errors, text):
    """The cause of the first error, if each error is known or follows from one that is; else None."""
    causes = []
    for error in errors:
        found = [c for s, c, pattern, holds in KNOWN if s == solver and re.search(pattern, error) and holds(text)]
        if not found and not (causes and re.search(FOLLOWS, error)):
            return None
        causes += found
    return causes[0]


def version(solver):
    """The first line that a solver says of its version; None if it is not installed or does not start."""
    if shutil.which(solver) is None:
        return None
    try:
        out = subprocess.run([solver, "--version"], stdin=subprocess.DEVNULL, capture_output=True, timeout=20)
    except (OSError, subprocess.TimeoutExpired):
        return None
    return out.stdout.decode("utf-8", "replace").split("\n")[0].strip() if out.returncode == 0 else None


def read_scripts(folder):
    """The distinct scripts of a folder with the names of their files, the shortest first, so that a budget covers many."""
    names = collections.defaultdict(list)
    for file in os.listdir(folder):
        if file.endswith(".smt2"):
            with open(os.path.join(folder, file), "rb") as f:
                names[f.read()].append(file[: -len(".smt2")])
    by_number = lambda name: (len(name), name)
    listed = [(text, sorted(found, key=by_number)) for text, found in names.items()]
    return sorted(listed, key=lambda s: (len(s[0]), by_number(s[1][0])))


def some(names):
    """How many scripts, and which."""
    return "%d: %s" % (len(names), " ".join(names[:40]) + (" .." if len(names) > 40 else ""))


def main():
    take = argparse.ArgumentParser(prog="run.sh")
    take.add_argument("folder")
    take.add_argument("--limit", type=float, default=3, help="seconds for one script and solver (3)")
    take.add_argument("--budget", type=float, default=1200, help="seconds in all (1200)")
    take.add_argument("--memory", type=int, default=4096, help="MB for a solver (4096)")
    take.add_argument("--solvers", default=",".join(SOLVERS), help="which to ask, with commas (all that are installed)")
    given = take.parse_args()
    wanted = given.solvers.split(",")
    if not set(wanted) <= set(SOLVERS):
        take.error("known solvers: " + " ".join(SOLVERS))

    installed = []
    for solver in wanted:
        says = version(solver)
        print("%-5s %s" % (solver, says or "not found"))
        if says:
            installed.append(solver)
    if not installed:
        print("No solver was found. On Debian: apt-get install z3 cvc5")
        return 2
    scripts = read_scripts(given.folder)
    if not scripts:
        print("There is no script to hand over.")
        return 2
    print("%d distinct scripts; %g s for each, %g s in all, %d MB" % (len(scripts), given.limit, given.budget, given.memory))
    sys.stdout.flush()

    tally = {solver: collections.Counter() for solver in installed}
    failures = collections.defaultdict(list)
    undecided = collections.defaultdict(list)
    conflicts = []
    agreed = handed = 0
    end = time.monotonic() + given.budget
    for text, names in scripts:
        if time.monotonic() >= end:
            break
        handed += 1
        may_wrap = reach(text) >= 2**32
        answers = {}
        for solver in installed:
            parse, solve = SOLVERS[solver]
            bare = text[: -len(CHECK)] if solver in NO_PARSE_OPTION and text.endswith(CHECK) else text
            said = say(parse, bare, given.limit, given.memory << 20)
            if said.what in ("nothing",) + ANSWERS:
                tally[solver]["parsed"] += 1
                said = say(solve, text, given.limit, given.memory << 20)
            if said.what == "nothing":
                said = Said("error", ["no answer"])
            if said.what == "error":
                cause = known(solver, said.errors, text)
                tally[solver]["known" if cause else "new"] += 1
                failures[(cause is None, solver, cause or "", said.errors[0])].append(names[0])
            elif said.what in ("time", "memory"):
                tally[solver][said.what] += 1
                undecided[(solver, said.what)].append(names[0])
            else:
                answers[solver] = said.what
                tally[solver]["uncounted" if may_wrap else said.what] += 1
        if {"sat", "unsat"} <= set(answers.values()):
            conflicts.append((names[0], answers))
        elif not may_wrap and max(list(answers.values()).count(a) for a in ("sat", "unsat")) >= 2:
            agreed += 1

    print("\n%-44s%s" % ("", "".join("%8s" % s for s in installed)))
    print("%-44s%s" % ("handed over", "".join("%8d" % handed for s in installed)))
    for row, label in ROWS:
        print("%-44s%s" % (label, "".join("%8d" % tally[s][row] for s in installed)))
    if handed < len(scripts):
        print("%d scripts were not handed over: the budget was used up" % (len(scripts) - handed))
    if len(installed) > 1:
        print("sat or unsat by two solvers or more, in agreement: %d" % agreed)
    for (solver, what), names in sorted(undecided.items()):
        print("\n%s, out of %s\n  %s" % (solver, what, some(names)))
    for (new, solver, cause, error), names in sorted(failures.items()):
        print("\n%s %s: %s" % (solver, "FAILS, cause not known" if new else "fails, known", cause or "look at it"))
        print("  %s\n  %s" % (error, some(names)))
    for name, answers in conflicts:
        print("\nCONFLICT in %s: %s" % (name, ", ".join("%s says %s" % a for a in answers.items())))
    print("\nconflicts: %d" % len(conflicts))
    return 1 if conflicts or any(tally[s]["new"] for s in installed) else 0


if __name__ == "__main__":
    sys.exit(main())
