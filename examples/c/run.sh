#!/bin/sh
# Compiles the programs of this folder against the library, runs them and compares what each writes with the .txt of its name (that of
# print_m2 is expected.txt): as C99, as they would be delivered and under the address and undefined-behaviour sanitizers, and as C++17 under
# these. Then entry_points.c, a test of every entry point, likewise under the sanitizers. CC and CXX name other compilers, ECHO_LIB_DIR another
# folder of the library, OUT another folder to build in. Without a C++ compiler its part is left out, and the script says so. Exit status: 0 if
# all is as expected.
set -eu
cd "$(dirname "$0")/../.."
out=${OUT:-target/c}
folder=target/staticlib
[ -f lib/libecho_c.a ] && folder=lib # in the archive
library=${ECHO_LIB_DIR:-$folder}/libecho_c.a
cc=${CC:-gcc}
cxx=${CXX:-g++}
warnings='-Wall -Wextra -Wpedantic -Wconversion -Werror'
if [ ! -f "$library" ]; then
    echo "run.sh: $library is not there: sh tools/staticlib.sh"
    sh tools/staticlib.sh
fi
mkdir -p "$out"
others=$(nm -u "$library" | awk '$1 == "U" && $2 != "memcpy" && $2 != "memset" { print $2 }')
if [ -n "$others" ]; then
    echo "run.sh: the library needs more of the C library than the header says:" $others
    exit 1
fi
# It can be part of a shared library: nothing in it has to be moved when that is loaded, but for addresses in its data.
"$cc" -shared -o "$out/libecho.so" -Wl,--whole-archive "$library" -Wl,--no-whole-archive -Wl,-z,defs -Wl,-z,text
sanitizers='-g -O1 -fsanitize=address,undefined -fno-sanitize-recover=all'
# built PROGRAM COMPILER OPTION ..: examples/c/PROGRAM.c
built() {
    program=$1
    shift
    "$@" $warnings -Iinclude -o "$out/$program" "examples/c/$program.c" -x none "$library"
}
compared() {
    for compiler in "$cc -std=c99 -O2" "$cc -std=c99 $sanitizers" ${plus:+"$cxx -std=c++17 -x c++ $sanitizers"}; do
        built "$1" $compiler
        "$out/$1" > "$out/$1.out"
        diff "examples/c/$2" "$out/$1.out"
    done
    echo "run.sh: $1 wrote what is expected, under the sanitizers too${plus:+, and as C++17}"
}
tested() {
    language=$1
    shift
    built entry_points "$@" $sanitizers
    said=$("$out/entry_points")
    echo "run.sh: as $language under the sanitizers: $said"
}
plus=
if command -v "$cxx" > /dev/null; then
    plus=yes
else
    echo "run.sh: no $cxx: nothing is compiled as C++17"
fi
compared print_m2 expected.txt
compared cut_file cut_file.txt
compared fewest_roots fewest_roots.txt
compared which_broke which_broke.txt
compared map_lines map_lines.txt
compared one_meaning one_meaning.txt
tested C99 "$cc" -std=c99 -x c
if [ -n "$plus" ]; then
    tested C++17 "$cxx" -std=c++17 -x c++
    echo '#include "echo.h"' | "$cxx" -std=c++17 $warnings -Wsign-conversion -Wshadow -Wold-style-cast -Iinclude -fsyntax-only -x c++ -
fi
