#!/bin/sh
# Shortening rules from the linker's source to the solvers' answers, a board's log and a map file: what src/main.rs describes, through
# smt-echo. Every output is compared with examples/rule/expected, and the commands of README.md's story with what stands below them there.
# Solvers that are not installed are left out, and the script says so. ECHO_LIB_DIR names another folder of the library. Exit status: 0 if
# all is as expected.
set -eu
cd "$(dirname "$0")/../.."
if [ -z "${ECHO_LIB_DIR:-}" ] && [ ! -f target/staticlib/libecho_c.a ] && [ ! -f lib/libecho_c.a ]; then
    sh tools/staticlib.sh
fi
cargo build --quiet --release --offline --manifest-path bindings/rust/Cargo.toml --target-dir target/bindings --bin smt-echo
cargo build --quiet --release --offline --manifest-path examples/rule/Cargo.toml --target-dir target/bindings
PATH=$PWD/target/bindings/release:$PATH
export PATH
readme=$PWD/README.md
story=$PWD/examples/rule
rm -rf target/rule
mkdir -p target/rule/problems target/rule/out
cd target/rule
solvers=
for solver in z3 cvc5; do
    if command -v "$solver" > /dev/null; then
        solvers="$solvers $solver"
    else
        echo "run.sh: $solver is not installed, and is not asked"
    fi
done

failed() { echo "run.sh: $*"; exit 1; }

# asked NAME ANSWER: what each solver says to the script of a problem. An answer counts only with status 0 and nothing beside it.
asked() {
    for solver in $solvers; do
        said=$("$solver" "out/$1.smt2" 2>&1) || failed "$solver fails on $1: $said"
        [ "$said" = "$2" ] || failed "$solver says $said to $1, and $2 is expected"
        echo "    $solver: $said"
    done
}

# model NAME SOLVER: the index that a solver found, as a trace of one row.
model() {
    { echo '(set-option :produce-models true)'; cat "out/$1.smt2"; echo '(get-value (|idx|))'; } > model.smt2
    "$2" model.smt2 | tr -d '()|' | awk 'NR == 2 { print $1; print $2 }'
}

for name in call call-wide call-assumed call-shared load mask mask-wide extend extend-renamed many; do
    rule "$name" > "problems/$name"
done

echo "The rule: a call through auipc and jalr, shortened to jal where the distance has 21 bits."
smt-echo show problems/call > out/call.txt
smt-echo size problems/call > out/call.size
smt-echo print -o out/call.smt2 problems/call
asked call unsat

echo "Its assumptions alone: they do not contradict each other."
smt-echo print -o out/call-assumed.smt2 problems/call-assumed
asked call-assumed sat

echo "The condition one bit too wide: the solvers know a call that goes elsewhere."
smt-echo print -o out/call-wide.smt2 problems/call-wide
asked call-wide sat

echo "The distance as one node, used three times: refused."
status=0
smt-echo print -o out/call-shared.smt2 problems/call-shared 2> out/call-shared.refused || status=$?
echo "status $status" >> out/call-shared.refused
sed 's/^/    /' out/call-shared.refused

echo "The same problem with let:"
smt-echo print --let -o out/call-let.smt2 problems/call-shared
asked call-let unsat

echo "A second rule: an index is not cut to 16 bits where it has no more."
smt-echo print -o out/mask.smt2 problems/mask
asked mask unsat

echo "The slip: its condition says 17, and the pair that is dropped keeps 16."
smt-echo print -o out/mask-wide.smt2 problems/mask-wide
asked mask-wide sat

echo "What a solver found, as a row: a model of the wide rule, and where the right one stops it."
for solver in $solvers; do
    model mask-wide "$solver" > model.csv
    [ "$(smt-echo replay problems/mask-wide model.csv)" = '0 holds' ] || failed "the row of $solver is no model: $(cat model.csv)"
    smt-echo replay --formulas problems/mask model.csv > model.told
    head -n 2 "$story/expected/mask.replayed" | diff - model.told
    echo "    $solver: idx = $(tail -n 1 model.csv)"
    sed 's/^/    /' model.told
done

echo "Rows that a board logged, against both:"
cp "$story/rows.csv" .
smt-echo replay -o out/mask-wide.replayed problems/mask-wide rows.csv
smt-echo replay --formulas -o out/mask.replayed problems/mask rows.csv
sed 's/^/    /' out/mask.replayed

echo "The formulas, as they stand in the map file:"
for name in call mask; do
    smt-echo formulas "problems/$name" | sed "s/^/$name: /"
done > out/rules.map
tail -n 2 out/rules.map | sed 's/^/    /'

echo "The script as a customer sends it on, without its constants:"
smt-echo print --hidden -o out/call-hidden.smt2 problems/call
grep -o '#b[01]*' out/call-hidden.smt2 | sort | uniq -c | sed 's/^ */    /'

echo "A table of 200 branches, refused: the two roots that matter."
status=0
smt-echo print -o out/many.smt2 problems/many 2> out/many.refused || status=$?
echo "status $status" >> out/many.refused
smt-echo fewest -o out/many.fewest problems/many
sed 's/^/    /' out/many.fewest
smt-echo fewest --show problems/many | grep '^root' > out/many.roots

echo "A release of three rules in one file: each name has one meaning in it; and cut again:"
smt-echo print -o out/load.smt2 problems/load
asked load unsat
cat out/call.smt2 out/load.smt2 out/mask.smt2 > release.smt2
smt-echo release -o out/release.checked release.smt2
sed 's/^/    /' out/release.checked
smt-echo split release.smt2 > out/release.split
sed 's/^/    /' out/release.split
smt-echo split --into cut release.smt2
cmp cut/0.smt2 out/call.smt2
cmp cut/1.smt2 out/load.smt2
cmp cut/2.smt2 out/mask.smt2

echo "A fourth rule is right by itself, and has idx at another width: the release is refused, and with another name it is not."
smt-echo print -o out/extend.smt2 problems/extend
asked extend unsat
status=0
(cd out && smt-echo release call.smt2 load.smt2 mask.smt2 extend.smt2) 2> out/release.refused || status=$?
echo "status $status" >> out/release.refused
sed 's/^/    /' out/release.refused
smt-echo print problems/extend-renamed | cat release.smt2 - | smt-echo release > out/release-renamed.checked
sed 's/^/    /' out/release-renamed.checked

echo "Of the release only scripts are kept. Support has the nodes of a rule again, and what they are printed as:"
smt-echo read --show -o out/mask.read cut/2.smt2
sed 's/^/    /' out/mask.read
smt-echo read cut/2.smt2 | smt-echo print | cmp - cut/2.smt2
smt-echo replay cut/2.smt2 rows.csv > replayed
smt-echo replay problems/mask rows.csv | diff - replayed

diff -r "$story/expected" out
if [ "$solvers" = ' z3 cvc5' ]; then
    # README.md's story: commands behind a dollar sign, and what they write.
    awk '/^## / { on = /^## A rule/ } on && /^    / { print substr($0, 5) }' "$readme" > readme
    mkdir told
    (cd told && grep '^\$ ' ../readme | sed 's/^\$ //' | sh > ../told.out 2>&1)
    grep -v '^\$ ' readme | diff - told.out
    echo "run.sh: README.md's story is as it stands there"
else
    echo "run.sh: README.md's story is not compared, since it asks z3 and cvc5"
fi
echo "run.sh: every output is as expected"
