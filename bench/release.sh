#!/bin/sh
# Measures check_release on releases of 64 scripts: its time beside that of reading the scripts back twice, and the stack. The library is
# target/staticlib/libecho_c.a (`sh tools/staticlib.sh`), or that of the folder which ECHO_LIB_DIR names. It fails if more stack is taken than
# `release_stack` of the Rust package, and `echo_release_stack` of the header, tell of the longest script, or more than 2 MB where all
# scripts are within the depth.
set -eu
cd "$(dirname "$0")/.."
library=${ECHO_LIB_DIR:-target/staticlib}
room=$(mktemp -d)
trap 'rm -rf "$room"' EXIT
cargo build --quiet --release --offline --manifest-path bindings/rust/Cargo.toml --target-dir "$room/package" --lib
rustc --edition 2024 -C opt-level=3 --extern smt_echo="$room/package/release/libsmt_echo.rlib" -L native="$library" -o "$room/releases" bench/src/releases.rs
"$room/releases"
