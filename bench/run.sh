#!/usr/bin/env bash
# Times the library and the program beside other ways to list chains: plain C++ without and with the same pruning, igraph, networkx.
# One command for everything: builds what is missing, runs all sides on the same graphs in five rounds, compares their chains,
# prints the table of ratios, and leaves it and a picture under target/bench/beside. Four to six minutes.
#
#   bash bench/run.sh [--write] [SECONDS]
#
# With --write the table also goes to docs/MEASUREMENTS.md and the picture to docs/benchmarks.svg; otherwise no file of the
# repository is changed. A side is stopped after 10 seconds of processor time, or as many as are named. Ends with an error only
# where two sides do not agree on the chains.
set -eu
cd "$(dirname "${BASH_SOURCE[0]}")/.."

write=
if [ "${1:-}" = --write ]; then
  write=yes
  shift
fi
seconds="${1:-10}"
out=target/bench/beside
mkdir -p "$out"
load() { cut -d ' ' -f 1 /proc/loadavg; }
before=$(load)

[ -f target/staticlib/liboutside.a ] && [ -x target/bin/chains ] || bash tools/build.sh

has_igraph() { echo '#include <igraph/igraph.h>' | "${CXX:-g++}" -x c++ -fsyntax-only - 2> "$out/igraph.log"; }
if ! has_igraph; then
  echo "igraph is missing: installing libigraph-dev" >&2
  { apt-get update && apt-get install -y --no-install-recommends libigraph-dev; } > "$out/apt.log" 2>&1 || true
fi
igraph=()
if has_igraph; then igraph=(-ligraph); else echo "igraph cannot be had: going on without it" >&2; fi

for source in program/plain beside/beside beside/igraph_side; do
  "${CXX:-g++}" -O3 -std=c++17 -Wall -Wextra -I/usr/include/igraph -c -o "$out/$(basename "$source").o" "bench/$source.cpp"
done

# Who took over a second or was stopped: key and side in one word.
slow() { awk -F '\t' '$4 != "done" || $10 > 1 { print $1 $3 }' "$out/figures"; }
: > "$out/figures"
for round in 0 1 2 3 4; do
  echo "round $((round + 1)) of 5" >&2
  bash bench/plain/linked.sh "$out/plain" "$round" "$out/plain.o"
  bash bench/plain/linked.sh "$out/beside" "$round" "$out"/{beside,igraph_side}.o target/staticlib/liboutside.a "${igraph[@]}"
  mapfile -t not_again < <(slow)
  "$out/beside" target/bin/chains "$out/plain" "$out" "$seconds" "${not_again[@]}" >> "$out/figures"
done
python3 -B bench/beside/networkx_side.py "$out/cases" "$seconds" > "$out/networkx"
told="Load of the machine, $(nproc) processors: $before before, $(load) after; 1 of it is the run itself."
PYTHONPATH=bench/plain python3 -B bench/beside/table.py "$out" "$told"

if [ -n "$write" ]; then
  python3 -B bench/plain/put.py beside < "$out/table.md"
  cp "$out/benchmarks.svg" docs/benchmarks.svg
  echo "docs/MEASUREMENTS.md and docs/benchmarks.svg are written"
else
  echo "the table is $out/table.md, the picture $out/benchmarks.svg; with --write they go to docs/"
fi
