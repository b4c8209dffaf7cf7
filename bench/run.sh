#!/bin/sh
# Times the port beside the Rust: run.sh FOLDER [WORD], where FOLDER holds the unchanged Rust (kernel.rs and the files that it
# includes). With WORD, only the shapes that have it in their label; with records, only shorter records; with fewest, only the fewest roots;
# with traces, only the replay of traces; with formulas or reads, only formulas or scripts read back, and with one more word only the shapes of these
# that have it. target/staticlib/libecho_c.a must be there (`sh tools/staticlib.sh`), or LIBRARY names another. What is built goes to a folder of its own and is removed.
set -eu
source=$(cd "$1" && pwd)
shift
here=$(cd "$(dirname "$0")" && pwd)
library=${LIBRARY:-$here/../target/staticlib/libecho_c.a}
if [ ! -f "$library" ]; then
    echo "$library is not there; make it with: sh tools/staticlib.sh" >&2
    exit 2
fi
room=$(mktemp -d)
trap 'rm -rf "$room"' EXIT
cp "$library" "$room/libecho_c.a"
rustc --edition 2024 --crate-type rlib --crate-name kernel -C opt-level=3 -A warnings -o "$room/libkernel.rlib" "$source/kernel.rs"
rustc --edition 2024 -C opt-level=3 --extern kernel="$room/libkernel.rlib" -L native="$room" -l static=echo_c -o "$room/speed" "$here/src/main.rs"
"$room/speed" "$@"
