#!/usr/bin/env python3
"""Writes, line by line and by a second desk, the script whose steps `generate N COUNT` takes, and compares where both lead.
usage: python3 bench/generated.py PROGRAM N COUNT [--case]
PROGRAM is a built i3replay. Which transaction waits, and which windows it awaits, is found by running the lines so far. With
--case the script is written as a case of cases_tool, and nothing is compared.
"""
import subprocess, sys

TEXTS = ["split toggle", "layout toggle all", "focus left", "focus right", "move left", "move right", "floating toggle"]


def run(program, words, text=""):
    return subprocess.run([program, *words], input=text.encode(), stdout=subprocess.PIPE, check=True).stdout.decode().splitlines()


def asked(program, lines):
    """The number of the last transaction that ended, the one before which it began, and what the next one asks of windows."""
    said = run(program, ["replay"], "".join(line + "\n" for line in lines) + "paint\n")
    frame = next(line for line in reversed(said) if line.startswith("frame "))
    done, prefix = map(int, frame.split()[1:])
    said = run(program, ["replay"], "".join(line + "\n" for line in lines) + f"wants {done} 99999\n")
    wants = {}
    for line in reversed(said[:-1]):
        if not line.startswith("configure "):
            break
        con, serial, size = line.split()[1:]
        wants[int(con)] = (int(serial), size)
    return done, prefix, wants


def windows(program, lines):
    said = run(program, ["replay"], "".join(line + "\n" for line in lines) + "wants 0 99999\ntree\n")
    return said[-1].count('"window":') - said[-1].count('"window":null')


def step(program, r, lines, acked, given):
    """The line of a drawn number."""
    q = r // 8
    done, _, wants = asked(program, lines) if r % 8 in (0, 1, 2, 5) else (0, 0, {})
    if r % 8 in (0, 1, 2):
        for con, (serial, size) in sorted(wants.items()):
            if given.get(con) == serial:
                continue
            if acked.get(con) != serial:
                acked[con] = serial
                return f"ack {con} {serial}"
            given[con] = serial
            return f"buffer {con} 123456 {size}"
        return 'tick ""'
    if r % 8 == 3:
        return "run " + (TEXTS + [f"workspace number {q // 8 % 4 + 1}"])[q % 8]
    if r % 8 == 4:
        return f"close {4 + q % 64}"
    if r % 8 == 5:
        return f"deadline {done + 1 if wants else 1}"
    return f'map {r % 2**24:06x} 640x480 title="w"'


def main():
    program, n, count = sys.argv[1], int(sys.argv[2]), int(sys.argv[3])
    x, lines, acked, given = n, [], {}, {}
    for _ in range(count):
        x = (x * 6364136223846793005 + 1442695040888963407) % 2**64
        lines.append(step(program, x >> 33, lines, acked, given))
    if "--case" in sys.argv:
        print("\n".join(["words replay"] + ["| " + line for line in lines] + ["| paint", "end"]))
        return
    done, prefix, _ = asked(program, lines)
    mine = [f"steps {len(lines)}", f"done {done}", f"prefix {prefix}", f"windows {windows(program, lines)}"]
    theirs = run(program, ["generate", str(n), str(count)])
    print("\n".join(mine))
    sys.exit(mine != theirs)


main()
