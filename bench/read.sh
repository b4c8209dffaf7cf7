#!/bin/sh
# Measures read_script: its time beside that of printing the same problem, and the stack that deep scripts take. The library is
# target/staticlib/libecho_c.a (`sh tools/staticlib.sh`), or that of the folder which ECHO_LIB_DIR names. It fails if more stack is taken than
# `read_stack` of the Rust package, and `echo_read_stack` of the header, tell, or more than 2 MB for a script within the depth.
set -eu
cd "$(dirname "$0")/.."
library=${ECHO_LIB_DIR:-target/staticlib}
room=$(mktemp -d)
trap 'rm -rf "$room"' EXIT
cargo build --quiet --release --offline --manifest-path bindings/rust/Cargo.toml --target-dir "$room/package" --lib
rustc --edition 2024 -C opt-level=3 --extern smt_echo="$room/package/release/libsmt_echo.rlib" -L native="$library" -o "$room/reads" bench/src/reads.rs
"$room/reads"
