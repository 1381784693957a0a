#!/bin/sh
# Times the command language over texts of 128 KiB and of 256 KiB: mixed commands, `nop;`, and one unclosed quote.
# Prints millions of bytes a second, read and printed, and how many times as long the longer text takes, and fails
# where that is above 2.3. Builds a small program for it, in a copy of the crates that it stands on; where no check
# here has proved wm_grammar, that takes some 6 minutes.
# usage: bench/grammar.sh
set -eu
here=$(cd "$(dirname "$0")/.." && pwd)
folder=$(mktemp -d)
trap 'rm -rf "$folder"' EXIT
mkdir -p "$folder/crates/grammar_speed/src"
for crate in wm_defs wm_base wm_language wm_words wm_grammar; do
    cp -r "$here/crates/$crate" "$folder/crates/"
    grep "^$crate:" "$here/crates.txt" >>"$folder/crates.txt"
done
echo 'grammar_speed: wm_base wm_grammar' >>"$folder/crates.txt"
cat >"$folder/crates/grammar_speed/src/main.rt" <<'PROGRAM'
//! Times how long reading a text of commands takes, and printing it.
#![tactic(auto)]

use std::io::Read;
use std::process::ExitCode;
use std::time::Instant;
use wm_grammar::{print, read};

/// How often the text is read and printed; the shortest times count.
const TIMES: usize = 20;

fn main(rt: HostRuntime) -> ExitCode {
    match timed(&rt) {
        Some(()) => ExitCode::from(0),
        None => ExitCode::from(1),
    }
}

/// Writes the nanoseconds of reading the text of standard input, and of printing it.
fn timed(rt: &HostRuntime) -> Option<()> {
    let mut text = String::new(rt.alloc());
    rt.stdin().read_to_string(&mut text).ok()?;
    let mut reading = u128::MAX;
    let mut printing = u128::MAX;
    for _ in 0..TIMES {
        let (read, printed) = once(rt, text.as_str())?;
        reading = reading.min(read);
        printing = printing.min(printed);
    }
    println!(rt; "{reading} {printing}").ok()
}

/// The nanoseconds of reading the text and of printing it, 0 where it does not read.
fn once(rt: &HostRuntime, text: &str) -> Option<(u128, u128)> {
    let start = Instant::now(rt).ok()?;
    let found = read(rt.alloc(), text);
    let reading = start.elapsed(rt).ok()?.as_nanos();
    let Ok(batch) = found else { return Some((reading, 0)) };
    let start = Instant::now(rt).ok()?;
    let printed = print(rt.alloc(), &batch).ok()?;
    let printing = start.elapsed(rt).ok()?.as_nanos();
    if printed.is_empty() { None } else { Some((reading, printing)) }
}
PROGRAM
(cd "$folder/crates/grammar_speed" && echo nop | rt run >"$folder/log" 2>&1) || { tail "$folder/log" >&2; exit 1; }
python3 - "$folder/crates/grammar_speed/out/grammar_speed" <<'PROGRAM'
import subprocess, sys

MIXED = [
    '[class="Firefox" urgent=latest] focus',
    "workspace number 3: mail",
    "move container to workspace back_and_forth",
    "resize grow width 10 px or 5 ppt, focus left",
    'mark --add --toggle "a b"',
    "split toggle, layout tabbed",
    "exec firefox --new-window",
    "floating enable, move position 10 px -20 px",
    'rename workspace "old" to new',
    '[title="x\\"y" floating] border pixel 3',
    "gaps inner all plus 5",
    "move workspace to output left",
]


def mixed(size):
    text = ""
    while len(text) < size:
        text += MIXED[text.count(";") % len(MIXED)] + "; "
    return text


def timed(text):
    times = subprocess.run([sys.argv[1]], input=text.encode(), stdout=subprocess.PIPE, check=True).stdout.split()
    return [int(time) / 1e9 for time in times]


def least(texts):
    """The least times of each text, all taken in turns, so that what else runs meets each alike."""
    rounds = [[timed(text) for text in texts] for _ in range(15)]
    return [[min(times) for times in zip(*runs)] for runs in zip(*rounds)]


KINDS = [
    ("mixed commands", mixed),
    ("`nop;`", lambda size: "nop;" * (size // 4)),
    ("one unclosed quote", lambda size: 'mark --add "' + "a;" * (size // 2 - 6)),
]
worst = 0
for name, text in KINDS:
    short, long = text(1 << 17), text(1 << 18)
    for what, first, second in zip(("read", "printed"), *least([short, long])):
        if first > 0:
            worst = max(worst, second / first)
            speed = len(long) / second / 1e6
            print("%s: %s %.1f million bytes a second, twice the text %.2f times as long" % (name, what, speed, second / first))
sys.exit(0 if worst <= 2.3 else 1)
PROGRAM
