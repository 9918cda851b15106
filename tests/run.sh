#!/usr/bin/env bash
# All tests over target/staticlib/liboutside.a and target/bin/chains, which have to stand: the independent Rust tests, the pages, reads and
# writes that fail, the bindings for Rust and Python, the header for C, and the example of each. Shows what every suite shows; the last
# line is the sum of their results, "N passed, M failed". Ends non-zero if anything failed.
set -u
cd "$(dirname "${BASH_SOURCE[0]}")/.." || exit 1

work=$(mktemp -d) || exit 1
trap 'rm -rf "$work"' EXIT
shown=$work/shown
passed=0
failed=0

# Adds a suite: how it ended, how many of its tests passed, how many failed. One that died, that did not build or that ran nothing
# leaves no result behind: it counts as one that failed.
add() {
  local status=$1 good=$2 bad=$3
  if [ "$bad" -eq 0 ] && { [ "$status" -ne 0 ] || [ "$good" -eq 0 ]; }; then
    bad=1
  fi
  passed=$((passed + good))
  failed=$((failed + bad))
}

sum() {
  awk '{ all += $1 } END { print all + 0 }'
}

# All test programs of a package run, also after one has failed, so that the sum is whole.
cargo_tests() {
  cargo test --release --offline --no-fail-fast --manifest-path "$1/Cargo.toml" 2>&1 | tee "$shown"
  local status=${PIPESTATUS[0]} good bad
  good=$(sed -n 's/^test result: .* \([0-9]*\) passed;.*/\1/p' "$shown" | sum)
  bad=$(sed -n 's/^test result: .* \([0-9]*\) failed;.*/\1/p' "$shown" | sum)
  add "$status" "$good" "$bad"
}

# The last line is OK, or counts in brackets what did not simply pass: failures, errors, skipped tests.
python_tests() {
  python3 "$1" 2>&1 | tee "$shown"
  local status=${PIPESTATUS[0]} ran bad
  ran=$(sed -n 's/^Ran \([0-9]*\) tests\{0,1\} in .*/\1/p' "$shown" | sum)
  bad=$(sed -n '$p' "$shown" | grep -o '=[0-9]*' | tr -d = | sum)
  add "$status" $((ran > bad ? ran - bad : 0)) "$bad"
}

# One test: a command that has to end well.
holds() {
  local words=$1
  shift
  if "$@"; then
    echo "$words ... ok"
    add 0 1 0
  else
    echo "$words ... FAILED"
    add 1 0 1
  fi
}

lists_six_persons() {
  "$@" < examples/six_persons.klf > "$work/printed" && diff crates/chains/stdout "$work/printed"
}

lists_rings_of_person_2() {
  "$@" < examples/six_persons.klf > "$work/printed" && printf '%s\n' '3: 2 1 3 2' '2: 2 3 2' '4: 2 3 5 0 2' 'end 3' | diff - "$work/printed"
}

# Every refusal as docs/REFUSALS.md has it, one a line: the number, and the words. What it says of number 0 stands behind the table.
refusal_words() {
  sed -n 's/^> /0 /p' docs/REFUSALS.md
  sed -n 's/^| \([0-9]*\) | \([^|]*\) |.*/\1 \2/p' docs/REFUSALS.md
}

refuses_nothing_at_all() {
  ! "$@" < /dev/null > "$work/printed" 2>&1 && grep -Fx "$(refusal_words | sed -n 's/^1 /refused 1 at 0: /p')" "$work/printed"
}

# Every example lists the six-person file as the program does, and tells the refusal of an empty file with its words.
example() {
  local words=$1
  shift
  holds "$words: the six-person file" lists_six_persons "$@"
  holds "$words: an empty file" refuses_nothing_at_all "$@"
}

# The program to make, the compiler and its options, the source. A warning is a failure.
compile() {
  local program=$work/$1
  shift
  "$@" -pedantic -Wall -Wextra -Werror -O2 -I include -x none target/staticlib/liboutside.a -o "$program"
}

calls_every_function() {
  compile calls "$@" && "$work/calls" < examples/six_persons.klf
}

threads_are_told_the_same() {
  compile threads cc -std=c99 -D_POSIX_C_SOURCE=200809L -pthread bindings/c/test_threads.c && "$work/threads"
}

has_the_document_s_words() {
  compile words cc -std=c99 bindings/c/refusal_words.c && "$work/words" > "$work/printed" && refusal_words | diff - "$work/printed"
}

# The Rust package by itself, and the archive under another name, where the package finds it only if it is told.
takes_rust_away() {
  mkdir "$work/rust" && cp -r bindings/rust/{Cargo.toml,Cargo.lock,build.rs,src,examples} "$work/rust" &&
    cp target/staticlib/liboutside.a "$work/proved.a"
}

rust_example() {
  cargo run --quiet --release --offline --manifest-path "$1/Cargo.toml" --example ask
}

with_archive() {
  local archive=$1
  shift
  KIN_ARCHIVE=$archive "$@"
}

names_the_missing_archive() {
  ! with_archive "$work/nothing.a" "$@" > "$work/printed" 2>&1 && grep -F "$work/nothing.a is missing: run" "$work/printed"
}

# Into an environment of its own, without a network.
installs_the_python_package() {
  python3 -m venv "$work/python" && "$work/python/bin/pip" install --quiet --no-index ./bindings/python
}

cargo_tests tests
python_tests tests/test_pages.py
python_tests tests/test_failing.py

cargo_tests bindings/rust
example "Rust example" rust_example bindings/rust
holds "Rust package, taken away" takes_rust_away
example "Rust example, archive named" with_archive "$work/proved.a" rust_example "$work/rust"
holds "Rust package, archive missing" names_the_missing_archive rust_example "$work/rust"

holds "shared library" bash bindings/python/build.sh
holds "shared library, archive missing" names_the_missing_archive bash bindings/python/build.sh
python_tests bindings/python/test_kin.py
python_tests bindings/python/test_packing.py
example "Python example" python3 bindings/python/ask.py
holds "Python package, installed" installs_the_python_package
# -I keeps the folder of the example out of sight, and with it the package that lies there.
example "Python example, package installed" "$work/python/bin/python" -I bindings/python/ask.py

holds "every function from C" calls_every_function cc -std=c99 bindings/c/test_kin.c
holds "every function from C++" calls_every_function c++ -std=c++11 -x c++ bindings/c/test_kin.c
holds "threads from C" threads_are_told_the_same
holds "refusals in the header" has_the_document_s_words
holds "C example, built" compile ask cc -std=c99 examples/ask.c
example "C example" "$work/ask"
holds "C example of rings, built" compile rings cc -std=c99 examples/rings.c
holds "C example of rings: the six-person file" lists_rings_of_person_2 "$work/rings"
holds "C example of rings: an empty file" refuses_nothing_at_all "$work/rings"

echo "$passed passed, $failed failed"
[ "$failed" -eq 0 ]
