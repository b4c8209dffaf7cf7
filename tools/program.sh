#!/bin/sh
# Proves a program and writes target/bin/NAME: program.sh NAME, where NAME is a crate with a main. `rt run` builds the program and runs it
# once, here on no input, and what it says then goes nowhere.
set -eu
if [ $# -ne 1 ]; then
    echo "program.sh: the name of one program is wanted" >&2
    exit 2
fi
cd "$(dirname "$0")/.."
if [ ! -f "crates/$1/src/main.rt" ]; then
    echo "program.sh: $1 is no program of this repository" >&2
    exit 2
fi
(cd "crates/$1" && rt run < /dev/null > /dev/null)
mkdir -p target/bin
cp "crates/$1/out/$1" "target/bin/$1"
