#!/usr/bin/env python3
"""Runs the gate and says what it cost: a table with the processor minutes of each crate's proof, tests and edits.

usage: bench/gate.py [WORD..]    runs `rt ci WORD..` at the top of the repository, `--anew` to prove all from nothing

What the gate prints goes to standard error, the table to standard output. The processes are looked at each second, so that
what ends between two looks is counted up to the one before.
"""
import collections, os, subprocess, sys, threading, time

TICK = os.sysconf("SC_CLK_TCK")
COLUMNS = ["proof", "tests", "edits", "other"]


def told(pid):
    """Of which crate a process is, and for what it works, or nothing where it is none of the prover's."""
    try:
        with open("/proc/%s/cmdline" % pid) as file:
            words = file.read().split("\0")
        folder = os.readlink("/proc/%s/cwd" % pid)
    except OSError:
        return None
    if not os.path.basename(words[0]).startswith(("rattle", "clang", "ld", "llc", "opt")):
        return None
    crate = words[words.index("--crate-name") + 1] if "--crate-name" in words else "of all"
    if "rt-edit" in folder:
        return crate, "edits"
    if "check" in words[:2] or "build" in words[:2]:
        return crate, "tests" if "--test" in words else "proof"
    return crate, "other"


def watch(ended, spent):
    """Adds up what each process spends, until the gate has ended."""
    known, seen = {}, {}
    while not ended.wait(1):
        for pid in filter(str.isdigit, os.listdir("/proc")):
            try:
                with open("/proc/%s/stat" % pid) as file:
                    fields = file.read().rsplit(")", 1)[1].split()
            except OSError:
                continue
            key = (pid, fields[19])
            if known.get(key) is None:
                known[key] = told(pid)
            if known[key] is not None:
                now = (int(fields[11]) + int(fields[12])) / TICK
                spent[known[key]] += now - seen.get(key, 0)
                seen[key] = now


def main():
    top = os.path.dirname(os.path.dirname(os.path.abspath(__file__)))
    ended, spent = threading.Event(), collections.Counter()
    watcher = threading.Thread(target=watch, args=(ended, spent))
    watcher.start()
    begun = time.time()
    status = subprocess.run(["rt", "ci", *sys.argv[1:]], cwd=top, stdout=sys.stderr, stdin=subprocess.DEVNULL).returncode
    took = time.time() - begun
    ended.set()
    watcher.join()
    crates = sorted({crate for crate, _ in spent}, key=lambda crate: -sum(spent[crate, it] for it in COLUMNS))
    print("%.1f minutes, %.0f processor minutes, status %d" % (took / 60, sum(spent.values()) / 60, status))
    print("| Crate | Proof | Tests | Edits | Other |\n|---|---|---|---|---|")
    for crate in crates:
        print("| %s | %s |" % (crate, " | ".join("%.1f" % (spent[crate, it] / 60) for it in COLUMNS)))
    print("| all | %s |" % " | ".join("%.1f" % (sum(spent[crate, it] for crate in crates) / 60) for it in COLUMNS))
    return status


sys.exit(main())
