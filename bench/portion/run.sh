#!/usr/bin/env bash
# Builds and runs the benchmark of the portion: the static library's kin_portion against the same in plain C and C++. The archive
# has to stand; another one may be named. Prints rows of the table.
exec bash "$(dirname "${BASH_SOURCE[0]}")/../plain/measure.sh" bench/portion/portion.cpp "$@"
