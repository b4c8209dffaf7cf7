#!/bin/sh
# Makes the recorded lists again: record.sh FOLDER, where FOLDER holds the unchanged Rust (kernel.rs and the files that it includes).
# With --clauses after it, the tally by clause is printed too. With --rows OUT nothing is recorded: rows of traces are written to the folder
# OUT as scripts for the solvers (solvers/traces.py). Nor with --copies OUT: the scripts with let are written to OUT/let, and the Rust's scripts
# of the same problems with their shared parts copied to OUT/plain (solvers/lets.py). What is built goes to a folder of its own and is removed.
set -eu
source=$(cd "$1" && pwd)
shift
here=$(cd "$(dirname "$0")" && pwd)
room=$(mktemp -d)
trap 'rm -rf "$room"' EXIT
rustc --edition 2024 --crate-type rlib --crate-name kernel -O -A warnings -o "$room/libkernel.rlib" "$source/kernel.rs"
python3 "$here/by_table.py" "$source" "$room/model"
rustc --edition 2024 --crate-type rlib --crate-name model -O -A warnings -o "$room/libmodel.rlib" "$room/model/kernel.rs"
rustc --edition 2024 -O --extern kernel="$room/libkernel.rlib" --extern model="$room/libmodel.rlib" -o "$room/record" "$here/src/main.rs"
if [ "${1:-}" = --rows ]; then
    "$room/record" rows "$2"
    exit
fi
if [ "${1:-}" = --copies ]; then
    "$room/record" copies "$2"
    exit
fi
for list in problems scripts records traces reads releases; do mkdir -p "$here/../crates/replay_$list/data"; done
cd "$here/.."
"$room/record" widths crates/replay_problems/data/widths.bin "$@"
"$room/record" printer crates/replay_problems/data/printer.bin "$@"
"$room/record" sizes crates/replay_problems/data/sizes.bin "$@"
"$room/record" hidden crates/replay_problems/data/hidden.bin "$@"
"$room/record" let crates/replay_problems/data/let.bin "$@"
"$room/record" fewest crates/replay_problems/data/fewest.bin "$@"
"$room/record" formulas crates/replay_problems/data/formulas.bin "$@"
"$room/record" scripts crates/replay_scripts/data/scripts.bin "$@"
"$room/record" records crates/replay_records/data/records.bin "$@"
"$room/record" traces crates/replay_traces/data/traces.bin "$@"
"$room/record" reads crates/replay_reads/data/reads.bin "$@"
"$room/record" releases crates/replay_releases/data/releases.bin "$@"
