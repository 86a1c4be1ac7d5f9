#!/bin/sh
# Times crates/bm_tree beside the toolchain's BTreeMap, in one run: a million random inserts, and then each item taken out, the
# least first. The map's key is (key, serial), so that it keeps equal keys apart. The program stands in a workspace of its own, in a
# temporary folder; it is proved and built there by `rt run`, which takes some minutes. Prints milliseconds, and what rt says on standard error.
set -e
top=$(cd "$(dirname "$0")/.." && pwd)
work=$(mktemp -d)
trap 'rm -rf "$work"' EXIT
mkdir -p "$work/crates"
cp -r "$top/crates/bm_tree" "$work/crates/bm_tree"
rm -rf "$work/crates/bm_tree/must-fail"
cd "$work"
: > crates.txt
rt new crates/tree_bench start_io >/dev/null
printf 'bm_tree:\ntree_bench: bm_tree\n' > crates.txt
rm -rf crates/tree_bench/proofs crates/tree_bench/specs crates/tree_bench/src crates/tree_bench/stdin crates/tree_bench/stdout
mkdir crates/tree_bench/src
cat > crates/tree_bench/src/main.rt <<'PROGRAM'
//! A million random inserts and takes, by a tree and by a map.
#![tactic(auto)]

use bm_tree::RedBlack;
use std::collections::BTreeMap;
use std::process::Abort;
use std::time::Instant;

const ITEMS: u32 = 1000000;

fn next_random(state: u64) -> u64 {
    (state % 4294967296 * 1664525 + 1013904223) % 4294967296
}

fn mixed(sum: u64, key: u32, serial: u32) -> u64 {
    (sum % 4294967296 * 31 + key as u64 + serial as u64) % 4294967296
}

fn tree_sum(rt: &(impl Abort + AllocGlobal), tree: &mut RedBlack<u32>) -> u64 {
    let mut sum: u64 = 0;
    for _ in 0..ITEMS {
        let (key, serial) = tree.pop_least().expect(rt, "an item");
        sum = mixed(sum, key, serial);
    }
    sum
}

fn fill_tree(rt: &(impl Abort + AllocGlobal), tree: &mut RedBlack<u32>) {
    let mut state: u64 = 7;
    for serial in 0..ITEMS {
        state = next_random(state);
        let key = (state / 4096 % 500000) as u32;
        let room = tree.len() < 2000000;
        assert!(rt; room);
        let inserted = tree.insert(key, serial);
        assert!(rt; inserted.is_ok());
    }
}

fn map_sum(rt: &(impl Abort + AllocGlobal), map: &mut BTreeMap<(u32, u32), u32>) -> u64 {
    let mut sum: u64 = 0;
    for _ in 0..ITEMS {
        let ((key, serial), _) = map.pop_first().expect(rt, "an item");
        sum = mixed(sum, key, serial);
    }
    sum
}

fn fill_map(rt: &(impl Abort + AllocGlobal), map: &mut BTreeMap<(u32, u32), u32>) {
    let mut state: u64 = 7;
    for serial in 0..ITEMS {
        state = next_random(state);
        let key = (state / 4096 % 500000) as u32;
        let inserted = map.insert((key, serial), serial);
        assert!(rt; inserted.is_ok());
    }
}

fn main(rt: HostRuntime) {
    let start = Instant::now(&rt).expect(&rt, "the clock");
    let mut tree: RedBlack<u32> = RedBlack::new(rt.alloc());
    fill_tree(&rt, &mut tree);
    let filled = start.elapsed(&rt).expect(&rt, "the clock").as_millis();
    let of_tree = tree_sum(&rt, &mut tree);
    let emptied = start.elapsed(&rt).expect(&rt, "the clock").as_millis();

    let start = Instant::now(&rt).expect(&rt, "the clock");
    let mut map: BTreeMap<(u32, u32), u32> = BTreeMap::new(rt.alloc());
    fill_map(&rt, &mut map);
    let map_filled = start.elapsed(&rt).expect(&rt, "the clock").as_millis();
    let of_map = map_sum(&rt, &mut map);
    let map_emptied = start.elapsed(&rt).expect(&rt, "the clock").as_millis();

    assert!(&rt; of_tree == of_map);
    let _ = println!(rt; "RedBlack: inserts {filled} ms, with takes {emptied} ms");
    let _ = println!(rt; "BTreeMap: inserts {map_filled} ms, with takes {map_emptied} ms");
}
PROGRAM
cd crates/tree_bench
rt run
