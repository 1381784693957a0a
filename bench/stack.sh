#!/bin/sh
# Finds how much stack i3replay needs for scripts with 4,096 floating windows on one workspace, with 4,096 windows in the scratchpad and
# with 256 tiled windows in one row: the least limit, of 64 KiB, 128 KiB and so on, under which it writes what it writes under the limit
# of the system. Each script is played without and with the lines that tell trees and events. With --within it sees instead that so many
# KiB are enough for each script with all its lines, and ends with status 1 where they are not.
# usage: bench/stack.sh [--within KIB] [PROGRAM]
set -eu
within=0
if [ "${1:-}" = --within ]; then
    within=$2
    shift 2
fi
. "$(dirname "$0")/program.sh"

python3 - "$program" "$within" <<'PROGRAM'
import resource, subprocess, sys

program, within = sys.argv[1], int(sys.argv[2])
# What is done over the windows once they are open.
DONE = ["run mark a", "run focus left", "run focus right", "run move left", "run fullscreen toggle", "run sticky toggle", "run floating toggle",
        "run floating toggle", "run scratchpad show", "run workspace 2", "run workspace back_and_forth", "run unmark", "paint"]
TOLD = ["tree", "workspaces", "outputs", "marks", "run [all] kill"]
OPENED = {
    "4,096 floating windows": (4096, ["run floating enable"]),
    "4,096 windows in the scratchpad": (4096, ["run move scratchpad"]),
    "256 tiled windows": (256, []),
}


def played(lines, stack):
    """The status and what is written under a stack of so many bytes, or under that of the system."""
    def limited():
        if stack:
            resource.setrlimit(resource.RLIMIT_STACK, (stack, stack))
    text = ("\n".join(lines) + "\n").encode()
    ran = subprocess.run([program, "replay"], input=text, stdout=subprocess.PIPE, stderr=subprocess.DEVNULL, preexec_fn=limited)
    return ran.returncode, ran.stdout


def wanted(name, lines):
    status, written = played(lines, None)
    if status != 0:
        sys.exit("%s: status %d" % (name, status))
    return status, written


failed = 0
for name, (count, then) in OPENED.items():
    opened = [line for _ in range(count) for line in ["map ff0000 64x48", *then]]
    if within:
        lines = opened + DONE + TOLD
        is_enough = played(lines, within * 1024) == wanted(name, lines)
        failed += not is_enough
        print("%s: a stack of %d KiB is %senough" % (name, within, "" if is_enough else "not "), flush=True)
        continue
    for what, lines in [("commands and a frame", opened + DONE), ("trees and events too", opened + DONE + TOLD)]:
        least, kib = wanted(name, lines), 64
        while played(lines, kib * 1024) != least:
            kib *= 2
        print("%s, %s: a stack of %d KiB is enough" % (name, what, kib), flush=True)
sys.exit(1 if failed else 0)
PROGRAM
