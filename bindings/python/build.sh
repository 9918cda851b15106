#!/usr/bin/env bash
# Makes kin/libkin.so, which the package carries, from the proved archive: target/staticlib/liboutside.a, or the one that KIN_ARCHIVE
# names. The archive's code may lie at any address, so that it is linked as it is; with -z defs a function that is missing is told here
# and not in Python.
set -eu
here=$(dirname "${BASH_SOURCE[0]}")

archive=${KIN_ARCHIVE:-$here/../../target/staticlib/liboutside.a}
[ -f "$archive" ] || { echo "$archive is missing: run 'bash tools/build.sh' first, or name the archive by KIN_ARCHIVE" >&2; exit 1; }

cc -shared -o "$here/kin/libkin.so" -Wl,-z,defs -Wl,--whole-archive "$archive" -Wl,--no-whole-archive
