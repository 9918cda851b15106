#!/usr/bin/env bash
# Builds one benchmark over the static library, which has to stand, runs it in five rounds and prints its rows of the table:
# measure.sh SOURCE [ARCHIVE].
set -eu
cd "$(dirname "${BASH_SOURCE[0]}")/../.."

source=$1 archive="${2:-target/staticlib/liboutside.a}"
program="target/bench/$(basename "${source%.*}").program"
mkdir -p target/bench
"${CXX:-g++}" -O3 -std=c++17 -Wall -Wextra -c -o "$program.o" "$source"
for round in 0 1 2 3 4; do
  bash bench/plain/linked.sh "$program" "$round" "$program.o" "$archive"
  "$program"
done > "$program.rounds"
python3 -B bench/plain/rows.py < "$program.rounds"
