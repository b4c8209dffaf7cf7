#!/bin/sh
# Hands the recorded accepted scripts to the solvers that are installed (z3, cvc5, cvc4), and reports what they said:
#     run.sh [LIST] [--limit SECONDS] [--budget SECONDS] [--memory MB] [--solvers NAMES]
# LIST is a recorded list of the printer (docs/RECORDED.md), or a folder of scripts NAME.smt2; without it, the list of this
# repository. It needs python3 and installs nothing. Exit status 0; 1 for an error that is not among the known ones or a conflict;
# 2 if nothing could be asked. docs/SOLVERS.md says what the report means.
set -eu
here=$(cd "$(dirname "$0")" && pwd)
list=$here/../crates/replay_problems/data/printer.bin
case "${1:-}" in
    "" | -*) ;;
    *) list=$1; shift ;;
esac
if ! command -v python3 > /dev/null; then
    echo "run.sh needs python3" >&2
    exit 2
fi
PYTHONDONTWRITEBYTECODE=1
export PYTHONDONTWRITEBYTECODE
if [ -d "$list" ]; then
    python3 "$here/ask.py" "$list" "$@"
    exit
fi
room=$(mktemp -d)
trap 'rm -rf "$room"' EXIT
trap 'exit 2' HUP INT TERM
python3 "$here/scripts.py" "$list" "$room" || exit 2
python3 "$here/ask.py" "$room" "$@"
