#!/usr/bin/env python3
"""Takes the processor's time of commands over few and over many windows, and prints what a command costs and how that grows. Each
size is a process of its own, and so is each where a second program is named, which opens its windows once. Then all of them take
rounds of commands in turn, one running while the others are held still, so that a machine whose speed changes meets all of them
alike: a ratio is the median of those within a round. What the filler of a round takes is measured behind it and taken off.
usage: bench/rows.py commands|own|floats|criteria|each|spaces|tabs I3REPLAY [OTHER_I3REPLAY]
"""
import os, sys, tempfile
from statistics import median

sys.dont_write_bytecode = True
from measure import Rounds, opened_side_by_side

ROUNDS = 20
OUTPUTS = 8


def tiled(windows):
    """Windows one below another in splits that stand side by side."""
    groups, each = {16: (4, 4), 128: (8, 16), 1024: (32, 32), 4032: (63, 64)}[windows]
    below = ["run split v"] + ["map 00ff00 640x480"] * (each - 1)
    # A workspace takes the layout of a split of its only window, so the first two groups begin with a window each.
    lines = ["map ff0000 640x480"] * 2 + ["run focus left"] + below + ["run focus right"] + below + ["run focus parent"]
    for _ in range(groups - 2):
        lines += ["map ff0000 640x480"] + below + ["run focus parent"]
    return lines + ["run focus child"]


def own(windows):
    """The same windows, each with a class, an instance and a title of its own."""
    texts = ' class="class-%d" instance="instance-%d" title="a title %d"'
    return [line + texts % (n, n, n) if line.startswith("map") else line for n, line in enumerate(tiled(windows))]


def floating(windows):
    """Floating windows, above one in the scratchpad."""
    return ["map ff0000 64x48", "run move scratchpad"] + ["map ff0000 64x48", "run floating enable"] * windows


def spread(spaces):
    """Workspaces on eight outputs, a window in each, the last one marked."""
    lines = ["output O%d %d,0 1000x800" % (n, 1000 * n) for n in range(OUTPUTS)]
    for n in range(spaces):
        lines += ["run focus output O%d, workspace w%d" % (n % OUTPUTS, n), "map ff0000 640x480"]
    return lines + ["run mark here"]


def tabbed(containers):
    """Tabbed containers side by side, each with 16 windows."""
    lines = ["run layout splith"]
    for _ in range(containers):
        lines += ["map ff0000 640x480", "run split h", "run layout tabbed"] + ["map 00ff00 640x480"] * 15 + ["run focus parent"]
    return lines + ["run focus child"]


def in_turn(*texts):
    return lambda n, size: texts[n % len(texts)]


def sent(n, size):
    return "[con_mark=here] focus" if n % 2 else "move to workspace w%d" % (7 * n % size)


TABLES = {
    "commands": (tiled, [16, 128, 1024, 4032], {
        "focus left, focus right": in_turn("focus left", "focus right"),
        "move left, move right": in_turn("move left", "move right"),
        "layout toggle": in_turn("layout toggle"),
        "mark --toggle a": in_turn("mark --toggle a"),
        "unmark": in_turn("unmark"),
        "gaps inner all": in_turn("gaps inner all plus 1", "gaps inner all minus 1"),
        "resize grow, resize shrink": in_turn("resize grow width 1 px", "resize shrink width 1 px"),
    }),
    "own": (own, [16, 128, 1024, 4032], {
        "focus left, focus right": in_turn("focus left", "focus right"),
        "unmark": in_turn("unmark"),
        "resize grow, resize shrink": in_turn("resize grow width 1 px", "resize shrink width 1 px"),
    }),
    "floats": (floating, [20, 200, 1024, 4090], {
        "focus left, focus right": in_turn("focus left", "focus right"),
        "move left, move right": in_turn("move left", "move right"),
        "resize grow, resize shrink": in_turn("resize grow width 1 px", "resize shrink width 1 px"),
        "fullscreen toggle": in_turn("fullscreen toggle"),
        "scratchpad show": in_turn("scratchpad show"),
        "kill of all": in_turn('[class=""] kill'),
    }),
    "criteria": (floating, [20, 200, 1024, 4090], {
        "border of all": in_turn('[class=""] border pixel 2', '[class=""] border pixel 3'),
        "border toggle of all": in_turn('[class=""] border toggle'),
    }),
    "each": (floating, [20, 200, 1024], {"title_format of all": in_turn('[class=""] title_format a', '[class=""] title_format b')}),
    "spaces": (spread, [16, 256], {
        "workspace": lambda n, size: "workspace w%d" % (7 * n % size),
        "move to workspace, [con_mark=here] focus": sent,
        "focus output": lambda n, size: "focus output O%d" % (3 * n % OUTPUTS),
    }),
    "tabs": (tabbed, [16, 64], {"focus left, focus right": in_turn("focus left", "focus right")}),
}


def count_over(size):
    """How many commands make a round over so many windows: an even number, since commands come in pairs, and at least so many that it
    counts little what the first of them finds out of the caches, since others ran before."""
    return max(20, min(1500, 60000 // size // 2 * 2))


def script(begin, kinds, size):
    """The rounds of a script: the opening, then for each kind of command rounds of it with an empty one behind each."""
    count = count_over(size)
    rounds = [begin]
    for text in kinds.values():
        for first in range(0, count * (ROUNDS + 1), count):
            rounds += [["run " + text(n, size) for n in range(first, first + count)], []]
    return rounds


def cost(run, size):
    """What a command of the next round costs, in microseconds."""
    return (run.turn() - run.turn()) / count_over(size) * 1e6


def measured(runs):
    """What a command of a kind costs in each run, round by round, each second round backwards. The first one is to warm up."""
    turns = list(runs.items())
    rounds = []
    for _ in range(ROUNDS + 1):
        rounds.append({key: cost(run, key[1]) for key, run in turns})
        turns.reverse()
    return rounds[1:]


def growth(rounds, key, other):
    """How many times as much a command costs in one run as in another."""
    return median(costs[key] / costs[other] for costs in rounds)


def listed(pattern, numbers):
    return ", ".join(pattern.format(number) for number in numbers)


def row(kind, rounds, programs, sizes):
    mine = [(programs[0], size) for size in sizes]
    line = "%s: %s microseconds over %s; %s times as long as over %d" % (
        kind, listed("{:,.1f}", (median(costs[key] for costs in rounds) for key in mine)), listed("{:,}", sizes),
        listed("{:.1f}", (growth(rounds, key, mine[0]) for key in mine[1:])), sizes[0])
    if len(programs) > 1:
        line += "; by the other program %s times as long" % listed("{:.2f}", (growth(rounds, (programs[1], size), (programs[0], size)) for size in sizes))
    return line


def main():
    table, *programs = sys.argv[1:]
    opened, sizes, kinds = TABLES[table]
    with tempfile.TemporaryDirectory() as folder:
        runs = {}
        for number, (program, size) in enumerate((program, size) for program in programs for size in sizes):
            runs[program, size] = Rounds(program, os.path.join(folder, str(number)), script(opened(size), kinds, size))
        try:
            opened_side_by_side(runs.values())
            for kind in kinds:
                print(row(kind, measured(runs), programs, sizes), flush=True)
        finally:
            for run in runs.values():
                run.end()


main()
