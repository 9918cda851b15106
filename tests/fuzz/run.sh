#!/usr/bin/env bash
# Fuzzing guided by coverage: bash tests/fuzz/run.sh [seconds], 60 where nothing is said. target/staticlib/liboutside.a
# has to stand. Ends non-zero if an input was found that the library answers otherwise than the independent checker and
# lister, or that makes it touch memory it was not lent; the input is kept in target/fuzz/found.
set -eu
seconds=${1:-60}
here=$(cd "$(dirname "${BASH_SOURCE[0]}")" && pwd)
root=$(cd "$here/../.." && pwd)
made=$root/target/fuzz
mkdir -p "$made/corpus" "$made/found"

# What is missing comes from Debian's packages.
missing=()
command -v clang++ >/dev/null || missing+=(clang)
command -v objdump >/dev/null || missing+=(binutils)
command -v python3 >/dev/null || missing+=(python3)
ls /usr/lib/llvm-*/lib/clang/*/lib/linux/libclang_rt.fuzzer-x86_64.a >/dev/null 2>&1 || missing+=(libclang-rt-14-dev)
if [ ${#missing[@]} -gt 0 ]; then
  apt-get install -y --no-install-recommends "${missing[@]}"
fi

# The reference gets LLVM's counters and traced comparisons, the library breakpoints (see blocks.c). A target is named so
# that build scripts stay plain.
host=$(rustc -vV | sed -n 's/^host: //p')
flags="-Cpasses=sancov-module -Cllvm-args=-sanitizer-coverage-level=4 -Cllvm-args=-sanitizer-coverage-inline-8bit-counters"
flags="$flags -Cllvm-args=-sanitizer-coverage-pc-table -Cllvm-args=-sanitizer-coverage-trace-compares -Ccodegen-units=1"
(cd "$here" && RUSTFLAGS="$flags" cargo build --release --offline --quiet --target "$host" --target-dir "$made/build")
clang -O2 -Wall -Wextra -Werror -c "$here/blocks.c" -o "$made/blocks.o"
clang++ -fsanitize=fuzzer "$made/blocks.o" "$made/build/$host/release/libfuzz.a" -o "$made/fuzz" -lpthread -ldl -lm

nm "$root/target/staticlib/liboutside.a" | awk '$2 ~ /^[tT]$/ { print $3 }' >"$made/functions"
objdump -d --no-show-raw-insn "$made/fuzz" | python3 "$here/blocks.py" "$made/functions" >"$made/blocks"

# The first inputs are generated files with questions about them.
(cd "$root/tests" && cargo run --release --offline --quiet --example seeds -- "$made/corpus")

echo "fuzzing for $seconds seconds over $(wc -l <"$made/blocks") blocks of the library's machine code"
KIN_BLOCKS="$made/blocks" "$made/fuzz" -max_total_time="$seconds" -max_len=5012 -timeout=20 -rss_limit_mb=2048 \
  -seed="${KIN_SEED:-20011}" -print_final_stats=1 -artifact_prefix="$made/found/" "$made/corpus" 2>&1 |
  tee "$made/log" | grep -v '^#[0-9]*.*\(REDUCE\|NEW\)\|^not met' || true
if [ -n "$(ls -A "$made/found")" ]; then
  echo "found:"; ls "$made/found"
  exit 1
fi
