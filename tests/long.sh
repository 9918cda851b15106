#!/usr/bin/env bash
# The longer run of the independent tests: bash tests/long.sh. The same tests with more rounds, each saying its seed;
# KIN_SEED sets another. target/staticlib/liboutside.a and target/bin/chains have to stand.
set -eu
cd "$(dirname "${BASH_SOURCE[0]}")"
KIN_LONG=1 cargo test --release --offline --no-fail-fast -- --nocapture --test-threads=1
