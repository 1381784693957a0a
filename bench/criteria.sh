#!/bin/sh
# Times wm_criteria: preparing a text with every key once, with patterns that are built and with plain ones, and
# ten thousand calls each of is_plain and plain_search. Prints microseconds. The program is written into a copy of
# the crates, and proved and built there, which takes some minutes the first time.
# usage: bench/criteria.sh
set -eu
here=$(cd "$(dirname "$0")/.." && pwd)
folder=$(mktemp -d)
trap 'rm -rf "$folder"' EXIT
mkdir -p "$folder/crates/criteria_bench/src"
for crate in wm_defs wm_base wm_language wm_words wm_grammar wm_forest wm_tree wm_criteria; do
    mkdir "$folder/crates/$crate"
    for part in src specs proofs; do
        cp -r "$here/crates/$crate/$part" "$folder/crates/$crate/$part"
    done
    grep "^$crate:" "$here/crates.txt" >>"$folder/crates.txt"
done
echo "criteria_bench: wm_criteria" >>"$folder/crates.txt"
cat >"$folder/crates/criteria_bench/src/main.rt" <<'PROGRAM'
//! Times preparing texts and searching with plain patterns.
#![tactic(auto)]

use std::io;
use std::time::Instant;
use wm_criteria::{RegexBuild, is_plain, plain_search, prepare};

/// How many calls of each are timed.
const CALLS: u32 = 10000;

/// Prints how long it takes to prepare the text.
fn time_preparing(rt: &HostRuntime, name: &str, text: &str) -> io::Result<()> {
    if text.len() > 4096 {
        return Ok(());
    }
    let start = Instant::now(rt)?;
    let built = prepare(rt.alloc(), text, &mut RegexBuild::new()).is_ok_and(|p| p.built());
    let took = start.elapsed(rt)?.as_micros();
    println!(rt; "prepare, {name}: {took} us, built {built}")
}

/// Plain patterns and texts.
const CASES: [(&str, &str); 4] = [
    ("^term$", "term"),
    ("256", "xterm-256color"),
    ("a\\.b$", "a window with a long title, named a.b"),
    ("^x", "firefox"),
];

/// Prints how long the calls with patterns and texts in turn take.
fn time_searching(rt: &HostRuntime) -> io::Result<()> {
    let mut plain = 0u32;
    let start = Instant::now(rt)?;
    for i in 0..CALLS {
        let (pattern, _) = CASES[i as usize % CASES.len()];
        if is_plain(pattern) {
            plain = plain.saturating_add(1);
        }
    }
    let took = start.elapsed(rt)?.as_micros();
    println!(rt; "is_plain: {plain} of {CALLS} calls in {took} us")?;
    let mut found = 0u32;
    let start = Instant::now(rt)?;
    for i in 0..CALLS {
        let (pattern, text) = CASES[i as usize % CASES.len()];
        if is_plain(pattern) && plain_search(pattern, text) {
            found = found.saturating_add(1);
        }
    }
    let took = start.elapsed(rt)?.as_micros();
    println!(rt; "is_plain and plain_search: {found} of {CALLS} calls in {took} us")
}

fn main(rt: HostRuntime) -> io::Result<()> {
    time_preparing(&rt, "14 keys, 7 patterns built", "[class=a+ instance=b+ window_role=c+ window_type=normal machine=d+ title=e+ con_mark=f+ workspace=g+ id=1 con_id=__focused__ urgent=latest floating tiling all] nop")?;
    time_preparing(&rt, "14 keys, 7 patterns plain", "[class=^a$ instance=b window_role=c window_type=normal machine=d title=e con_mark=f workspace=g id=1 con_id=__focused__ urgent=latest floating tiling all] nop")?;
    time_searching(&rt)
}
PROGRAM
cd "$folder/crates/criteria_bench"
rt run
