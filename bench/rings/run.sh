#!/usr/bin/env bash
# Builds and runs the benchmark of rings: the static library's kin_rings against the same in plain C and C++, and against its own
# kin_portion. The archive has to stand; another one may be named. Prints rows of the table.
exec bash "$(dirname "${BASH_SOURCE[0]}")/../plain/measure.sh" bench/rings/rings.cpp "$@"
