#!/usr/bin/env bash
# Measures the search against a C++ baseline and prints its rows of the table. Never part of pass or fail.
# The face of the search is exported in a copy of the crates outside the repository, in which no crate stands that crates.txt does not
# name. What a check here kept is begun with there, so that nothing is proved again if it has not changed.
set -euo pipefail
cd "$(dirname "${BASH_SOURCE[0]}")/../.."
copy=$(mktemp -d)
trap 'rm -rf "$copy"' EXIT
mkdir -p target/bench "$copy/crates/bench_export/src"
for crate in ways compact cells pages barriers search; do
    cp -r "crates/$crate" "$copy/crates"
    rm -rf "$copy/crates/$crate/out"
done
cat >"$copy/crates.txt" <<'END'
ways:
compact: ways
cells: ways
pages: ways cells
barriers: ways compact
search: ways compact pages barriers
bench_export staticlib: search barriers pages compact ways
END
cat >"$copy/crates/bench_export/src/lib.rt" <<'END'
// The face of the search for C++, for the benchmark alone.
#![tactic(auto)]

ghost use Rattle.std.specs.Prelude.{Some, None};
ghost use Rattle.compact.specs.Compact.{Compact};
ghost use Rattle.search.specs.Face.{Asked};

use compact::{Graph, LINKS, PERSONS, STARTS};
use pages::HandedOver;

fn told(found: HandedOver) -> usize {
    if found.more {
        return found.count.wrapping_add(4611686018427387904);
    }
    found.count
}

#[unsafe(no_mangle)]
pub extern "C" fn bench_afresh(
    starts: &[u16; STARTS],
    targets: &[u16; LINKS],
    fewest: &[u8; PERSONS],
    from: u32,
    to: u32,
    hops: usize,
    out: &mut [u32],
) -> usize
    requires graph { Compact starts.now targets.now }
    requires asked { Asked starts.now targets.now fewest.now from to hops None }
{
    let graph = Graph { starts, targets };
    told(search::list(graph, fewest, from, to, hops, None, out))
}

#[unsafe(no_mangle)]
pub extern "C" fn bench_behind(
    starts: &[u16; STARTS],
    targets: &[u16; LINKS],
    fewest: &[u8; PERSONS],
    from: u32,
    to: u32,
    hops: usize,
    bookmark: &[u32],
    out: &mut [u32],
) -> usize
    requires graph { Compact starts.now targets.now }
    requires asked { Asked starts.now targets.now fewest.now from to hops (Some bookmark) }
{
    let graph = Graph { starts, targets };
    told(search::list(graph, fewest, from, to, hops, Some(bookmark), out))
}
END
(cd "$copy/crates/bench_export" && rt lib >"$copy/build.log" 2>&1) || { tail -20 "$copy/build.log"; exit 1; }
cp "$copy/crates/bench_export/out/libbench_export.a" target/bench/libbench_export.a
bash bench/plain/measure.sh bench/search/drive.cpp target/bench/libbench_export.a
