#!/usr/bin/env bash
# Memory and load: bash tests/memory/run.sh [cases] [portions]. target/staticlib/liboutside.a has to stand.
#   1. random cases under valgrind, each lent slice by itself on the heap (400 where nothing is said);
#   2. portions in a row on one file, of chains and then of rings, their time and the memory of the process (1,000,000 of each where
#      nothing is said);
#   3. lent slices at the edges of pages, and rooms 1 to 50: tests/tests/edges.rs, which the gate runs too.
# Ends non-zero at the first error.
set -eu
cases=${1:-400}
portions=${2:-1000000}
cd "$(dirname "${BASH_SOURCE[0]}")/.."

if ! command -v valgrind >/dev/null; then
  apt-get install -y --no-install-recommends valgrind
fi

cargo build --release --offline --quiet --examples
programs=target/release/examples

# Without its leak report: the test program's own heap says nothing of the library, which has none.
echo "== $cases cases under valgrind"
valgrind --quiet --error-exitcode=1 --leak-check=no "$programs/cases" "$cases"
echo "valgrind found no error"

echo "== $portions portions in a row"
"$programs/portions" "$portions"
echo "== the same of rings"
"$programs/portions" "$portions" rings

echo "== the edges of pages, and rooms 1 to 50"
cargo test --release --offline --quiet --test edges
