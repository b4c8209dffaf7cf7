#!/bin/sh
# Proves the library for C and writes target/staticlib/libecho_c.a. What is proved already and has not changed is not proved again.
set -eu
cd "$(dirname "$0")/.."
(cd crates/echo_c && rt lib)
mkdir -p target/staticlib
cp crates/echo_c/out/libecho_c.a target/staticlib/libecho_c.a
