#!/bin/sh
# Compares the Rust and the proved port at scale: scale.sh FOLDER [COUNT] [SEED], where FOLDER holds the unchanged Rust (kernel.rs and the
# files that it includes). COUNT problems (500,000) follow from SEED (1). The port is linked as a C library from target/staticlib, or
# from the folder in LIBRARY. What is built goes to a folder of its own and is removed. Exit 1: a difference, which is printed.
set -eu
source=$(cd "$1" && pwd)
here=$(cd "$(dirname "$0")" && pwd)
library=${LIBRARY:-$here/../target/staticlib}
if [ ! -f "$library/libecho_c.a" ]; then
    echo "libecho_c.a is not there; make it with: sh tools/staticlib.sh" >&2
    exit 2
fi
room=$(mktemp -d)
trap 'rm -rf "$room"' EXIT
rustc --edition 2024 --crate-type rlib --crate-name kernel -O -A warnings -o "$room/libkernel.rlib" "$source/kernel.rs"
python3 "$here/by_table.py" "$source" "$room/model"
rustc --edition 2024 --crate-type rlib --crate-name model -O -A warnings -o "$room/libmodel.rlib" "$room/model/kernel.rs"
rustc --edition 2024 -O --extern kernel="$room/libkernel.rlib" --extern model="$room/libmodel.rlib" -L native="$library" -l static=echo_c -o "$room/scale" "$here/src/scale/main.rs"
"$room/scale" "${2:-500000}" "${3:-1}"
