#!/bin/sh
# Makes the archive twice, which must give the same bytes, unpacks it in an empty folder, and uses what is in it and nothing else of the
# repository: the C example by pkg-config, the C tests, the Rust example, a package of its own that depends on the Rust package, the command,
# and the story of examples/rule. Exit status: 0 if all is as expected.
set -eu
cd "$(dirname "$0")/.."
for tool in pkg-config gcc cargo; do
    command -v "$tool" > /dev/null || { echo "test.sh: $tool is not installed"; exit 2; }
done
unset ECHO_LIB_DIR CARGO_TARGET_DIR OUT
place=$(mktemp -d)
trap 'rm -rf "$place"' EXIT
dist/make.sh "$place/one" > /dev/null
dist/make.sh "$place/two" > /dev/null
archive=$(basename "$place"/one/*.tar.gz)
cmp "$place/one/$archive" "$place/two/$archive"
mkdir "$place/unpacked"
tar -xzf "$place/one/$archive" -C "$place/unpacked"
cd "$place/unpacked/${archive%.tar.gz}"
if grep -rIl -e "$place" -e "$OLDPWD" . ; then
    echo "test.sh: a path of this machine is in the archive"
    exit 1
fi
for file in NOTICE README.md include/echo.h lib/libecho_c.a lib/pkgconfig/smt-echo.pc docs/COMMAND.md docs/FORMATS.md; do
    [ -s "$file" ] || { echo "test.sh: $file is not in the archive"; exit 1; }
done

# The C example, as a program elsewhere would be built.
PKG_CONFIG_PATH=$PWD/lib/pkgconfig
export PKG_CONFIG_PATH
mkdir "$place/c"
gcc -std=c99 -O2 -Wall -Wextra -Wpedantic -Werror $(pkg-config --cflags smt-echo) -o "$place/c/print_m2" examples/c/print_m2.c \
    $(pkg-config --libs smt-echo)
"$place/c/print_m2" | diff examples/c/expected.txt -
echo "test.sh: the C example, by pkg-config, version $(pkg-config --modversion smt-echo)"
OUT=$place/c sh examples/c/run.sh > "$place/c/said"
sed 's/^run.sh/test.sh/' "$place/c/said"

# The Rust example, and a package that depends on the one in the archive.
(cd bindings/rust && cargo run --quiet --offline --example print > "$place/rust")
{ echo 'M2 0 103'; sed -n 2,5p examples/c/expected.txt; } | diff - "$place/rust"
echo "test.sh: the Rust example"
mkdir -p "$place/own/src"
cat > "$place/own/Cargo.toml" <<TOML
[package]
name = "own"
version = "0.1.0"
edition = "2024"

[dependencies]
smt-echo = { path = "$PWD/bindings/rust" }
TOML
cat > "$place/own/src/main.rs" <<'RS'
fn main() {
    println!("{:?}", smt_echo::echo_size(&smt_echo::Problem::default()));
}
RS
(cd "$place/own" && cargo run --quiet --offline) | grep -qx 'Ok(Size { length: 30, terms: 0 })'
echo "test.sh: a package that depends on the Rust package"

# The command, and the story.
(cd bindings/rust && printf 'problem\n' | cargo run --quiet --offline --bin smt-echo -- size) | grep -qx 'length 30'
sh examples/rule/run.sh > "$place/story"
tail -n 1 "$place/story" | sed 's/^run.sh/test.sh: the story/'
