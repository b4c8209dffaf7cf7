#!/bin/sh
# Writes one archive with all that a user of the library needs, and nothing to prove it with: the header, the library, a pkg-config file, the
# Rust package, the examples, NOTICE and the documents, but for the two that only tell how the repository's own text changed.
#
#   dist/make.sh [FOLDER]      writes FOLDER/smt-echo-VERSION.tar.gz and says so; FOLDER is target/dist if it is left out
#
# The same sources and library give the same bytes.
set -eu
folder=${1:-}
case $folder in
    '' | /*) ;;
    *) folder=$PWD/$folder ;;
esac
cd "$(dirname "$0")/.."
folder=${folder:-$PWD/target/dist}
library=target/staticlib/libecho_c.a
if [ ! -f "$library" ] || [ -n "$(find crates crates.txt \( -name '*.rt' -o -name '*.antt' -o -name crates.txt \) -newer "$library")" ]; then
    echo "make.sh: $library is not there, or older than its sources: sh tools/staticlib.sh" >&2
    sh tools/staticlib.sh >&2
fi
version=$(sed -n 's/^version = "\(.*\)"$/\1/p' bindings/rust/Cargo.toml)
name=smt-echo-$version
staged=$(mktemp -d)
trap 'rm -rf "$staged"' EXIT
root=$staged/$name
mkdir -p "$root/include" "$root/lib/pkgconfig" "$root/bindings" "$root/examples" "$folder"
cp include/echo.h "$root/include"
cp "$library" "$root/lib"
cp NOTICE README.md "$root"
cp -R docs "$root/docs"
rm "$root/docs/DESIGN-PASS.md" "$root/docs/PORT.md"
cp -R bindings/rust "$root/bindings/rust"
cp -R examples/c examples/rule "$root/examples"
rm -rf "$root/bindings/rust/target" "$root/examples/rule/target" # where cargo was run from another folder
cat > "$root/lib/pkgconfig/smt-echo.pc" <<PC
prefix=\${pcfiledir}/../..
includedir=\${prefix}/include
libdir=\${prefix}/lib

Name: smt-echo
Description: SMT-LIB scripts of bit-vector problems, by a proved printer
Version: $version
Cflags: -I\${includedir}
Libs: -L\${libdir} -lecho_c
PC
find "$root" -type d -exec chmod 755 {} +
find "$root" -type f -exec chmod 644 {} +
find "$root" -name '*.sh' -exec chmod 755 {} +
tar --sort=name --mtime=@0 --owner=0 --group=0 --numeric-owner --format=ustar -C "$staged" -cf "$staged/archive.tar" "$name"
gzip -n -9 < "$staged/archive.tar" > "$staged/archive"
mv "$staged/archive" "$folder/$name.tar.gz"
echo "make.sh: $folder/$name.tar.gz"
