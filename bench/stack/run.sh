#!/usr/bin/env bash
# Prints how much stack every exported function takes, answered and refused, and the least limit under which the program `chains`
# runs. The static library and target/bin/chains have to stand. Never part of pass or fail.
set -eu
cd "$(dirname "${BASH_SOURCE[0]}")/../.."

mkdir -p target/bench
"${CXX:-g++}" -O3 -std=c++17 -Wall -Wextra -o target/bench/stack.program bench/stack/stack.cpp target/staticlib/liboutside.a
target/bench/stack.program

# Where the stack begins is drawn anew in each run, within some kilobytes, so a limit has to do for many.
runs() {
  for _ in $(seq 30); do
    (ulimit -s "$1" && env -i target/bin/chains < "$2" > /dev/null 2>&1) 2> /dev/null || return 1
  done
}
least() {
  local limit=256
  while ! runs "$limit" "$1"; do limit=$((limit + 4)); done
  echo "$limit"
}
target/bench/stack.program input > target/bench/stack.input
lists=$(least target/bench/stack.input) refuses=$(least /dev/null)
printf '\nThe program `chains` runs under a stack limit of %s KB; where it refuses, of %s KB.\n' "$lists" "$refuses"
