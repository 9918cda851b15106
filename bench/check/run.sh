#!/usr/bin/env bash
# Builds and runs the benchmark of the check: the static library's kin_check against a plain C loop, on the largest file. The
# archive has to stand; another one may be named. Prints rows of the table.
exec bash "$(dirname "${BASH_SOURCE[0]}")/../plain/measure.sh" bench/check/check.cpp "$@"
