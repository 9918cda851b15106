#!/usr/bin/env bash
# Times the parts of the library, each against the same in plain C or C++, and measures the stack: the first two tables of
# docs/MEASUREMENTS.md. The static library and target/bin/chains have to stand. Three to four minutes, and more where the search has
# to be proved first.
#
#   bash bench/parts.sh [--write]
#
# Prints the tables and leaves them under target/bench; with --write they also go to docs/MEASUREMENTS.md.
set -eu
cd "$(dirname "${BASH_SOURCE[0]}")/.."

out=target/bench
mkdir -p "$out"
load() { cut -d ' ' -f 1 /proc/loadavg; }
before=$(load)
for part in check graph search portion rings join; do
  echo "$part" >&2
  bash "bench/$part/run.sh" > "$out/$part.md"
done
awk 'NR == FNR || FNR > 2' "$out"/{check,graph,search,portion,rings,join}.md > "$out/parts.md"
told="Load of the machine, $(nproc) processors: $before before, $(load) after; 1 of it is the run itself."
printf '\n%s\n' "$told" >> "$out/parts.md"
bash bench/stack/run.sh > "$out/stack.md"
cat "$out/parts.md" - "$out/stack.md" <<< ''

if [ "${1:-}" = --write ]; then
  python3 -B bench/plain/put.py parts < "$out/parts.md"
  python3 -B bench/plain/put.py stack < "$out/stack.md"
  echo "docs/MEASUREMENTS.md is written"
fi
