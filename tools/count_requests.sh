#!/usr/bin/env bash
# Counts how often the opening of a processor's caches asks for memory: eleven classes without a unit, over a recorder that keeps counts
# alone, with one vector of the caller's own. It isn't part of the gate.
#
#   tools/count_requests.sh
#
# A copy of the crates below gets one test, in a folder of its own that goes at the end. `rt try --test --fail-alloc N` refuses the
# test's request number N. Every refusal is seen, as create refuses then, so the test fails exactly where it asks N times at least; the
# largest such N is how often it asks. It has to be at most 40, and with request 41 refused the test has to pass.
# Nothing is proved, and each of its eight runs builds the copy anew, in some 35 processor seconds. Status 0 where both hold, 1 where not, 4 where the test doesn't run as it stands.
set -u
top=$(cd "$(dirname "$(readlink -f "$0")")/.." && pwd) || exit 4
limit=40
below="bm_word bm_class bm_page bm_journal bm_law bm_law_work bm_law_order bm_cache_lists bm_cache"

copy=$(mktemp -d) || exit 4
trap 'rm -rf "$copy"' EXIT
mkdir -p "$copy/crates/count_requests/src"
for crate in $below; do
    mkdir "$copy/crates/$crate" || exit 4
    for part in src specs proofs; do
        [ -d "$top/crates/$crate/$part" ] && cp -r "$top/crates/$crate/$part" "$copy/crates/$crate/"
    done
    grep "^$crate:" "$top/crates.txt" >> "$copy/crates.txt" || exit 4
done
echo "count_requests: bm_cache bm_class bm_journal bm_page" >> "$copy/crates.txt"
[ -f "$top/HANDLES" ] && cp "$top/HANDLES" "$copy/"

cat > "$copy/crates/count_requests/src/lib.rt" <<'TEST'
//! How often an opening asks for memory.
#![tactic(auto)]

#[cfg(test)]
mod tests;
TEST

cat > "$copy/crates/count_requests/src/tests.rt" <<'TEST'
//! An opening of eleven classes without units.

use bm_cache::Caches;
use bm_class::Class;
use bm_journal::Tally;
use bm_page::Unit;
use std::process::Abort;

#[test]
fn an_opening_asks_for_memory_a_few_times(rt: HostRuntime) {
    let mut fills: Vec<(Class, Vec<Unit>)> = Vec::with_capacity(rt.alloc(), 11).expect(&rt, "memory");
    for class in Class::all() {
        if let Err(_refused) = fills.push((class, Vec::new(rt.alloc()))) {
            panic!(rt; "memory");
        }
    }
    match Caches::create(rt.alloc(), 0, fills, Tally::new()) {
        Ok(caches) => caches.give_up(),
        Err(_back) => panic!(rt; "refused"),
    }
}
TEST

cd "$copy/crates/count_requests" || exit 4

# whether the test passes with request $1 refused; without a number, whether it passes at all
passes() {
    if [ $# -eq 0 ]; then
        rt try --test > "$copy/log" 2>&1
    else
        rt try --test --fail-alloc "$1" > "$copy/log" 2>&1
    fi
}

if ! passes; then
    cat "$copy/log" >&2
    echo "count_requests: the test doesn't pass with all its memory" >&2
    exit 4
fi

# the largest request whose refusal is seen, between one that is and one that isn't
asks=0
beyond=$((limit + 1))
if ! passes "$beyond"; then
    echo "count_requests: with request $beyond refused the test fails" >&2
    exit 1
fi
while [ $((beyond - asks)) -gt 1 ]; do
    middle=$(((asks + beyond) / 2))
    if passes "$middle"; then
        echo "count_requests: with request $middle refused it opens" >&2
        beyond=$middle
    else
        echo "count_requests: with request $middle refused it doesn't open" >&2
        asks=$middle
    fi
done
if [ "$asks" -eq 0 ]; then
    echo "count_requests: no refusal was seen" >&2
    exit 4
fi
echo "an opening of eleven empty classes asks for memory $asks times; at most $limit are allowed, and with request $((limit + 1)) refused it opens"
