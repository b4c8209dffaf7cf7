#!/bin/sh
# Tests what is around the proofs: the C header and examples, the Rust package and the command, the story of examples/rule, the archive. The
# proofs and the programs in Rattle are `.ci/run`. The library is brought up to date first, so that no older one is tested; what is proved and
# has not changed is not proved again. ECHO_LIB_DIR names another folder of the library, for all but the archive. Exit status: 0 if all is as
# expected.
set -eu
cd "$(dirname "$0")"
sh tools/staticlib.sh
sh examples/c/run.sh
(cd bindings/rust && cargo test --quiet --offline)
sh examples/rule/run.sh
sh dist/test.sh
echo "test.sh: all is as expected"
