#!/usr/bin/env bash
# Proves and builds the static library and the program, and puts them where the tests, the bindings and the measurements look for them:
# target/staticlib/liboutside.a, made from the crate outside_c, and target/bin/chains. What stands proved is not proved again. Ends
# non-zero if anything is not proved or not built.
set -eu
cd "$(dirname "${BASH_SOURCE[0]}")/.."
mkdir -p target/staticlib target/bin

(cd crates/outside_c && rt lib)
cp crates/outside_c/out/liboutside_c.a target/staticlib/liboutside.a

# A program is built by running it.
(cd crates/chains && rt run < stdin > /dev/null)
cp crates/chains/out/chains target/bin/chains
