#!/usr/bin/env python3
"""hostile.py PROGRAM [--rounds 3] [--only REGEX] [--json FILE] - what others leave to a viewer, as a table in Markdown.

PROGRAM is a built `vncdemo`. One viewer asks for one whole update after another, first alone, and then while others mean it no
good. In each round the servers take turns, and a cell is the median of the rounds."""
import re
import sys

from runs import VGA, ended, in_turns, lvs, machine, middle, number, options, ours

HEADS = ("LibVNCServer, loop", "`vncdemo serve --one-thread`", "`vncdemo serve`")
NONSENSE = 40
GOAL, FLOOD_GOAL = "0.95", "0.80, 10"


def rows():
    """what the others do, what `load` calls it, how many viewers there are in all, what is wanted"""
    yield "one never reads", "unread", 2, GOAL
    yield f"{NONSENSE} connections of nonsense come and go", "nonsense", 1 + NONSENSE, GOAL
    yield "one stays in its opening", "half-open", 2, GOAL
    for what in ("pointers", "keys", "texts"):
        yield f"eight send {what} without end", what, 9, FLOOD_GOAL
    yield "eight ask for changes without end", "requests", 9, FLOOD_GOAL
    yield "eight ask for all without end, and never read", "wholes", 9, FLOOD_GOAL


def main():
    opts = options(__doc__)
    servers = list(zip(HEADS, (lvs("loop"), ours(opts.program, "--one-thread"), ours(opts.program))))
    print(f"{machine()}; {opts.rounds} rounds\n", flush=True)
    print(f"| what the others do | goal | {' | '.join(HEADS)} |\n|---|---|---|---|---|", flush=True)
    kept, failed, alone = [], [], {name: [] for name in HEADS}
    for what, attack, viewers, goal in rows():
        if not re.search(opts.only, what):
            continue
        load = ["hostile", "--attack", attack, "--seconds", 2, "--phase", 2, "--conns", NONSENSE]
        runs, said = in_turns(servers, opts.rounds, VGA, viewers, load)
        failed += [f"{what}, {line}" for line in said]
        cells = []
        for name in HEADS:
            alone[name] += runs[name]
            share, stall = (middle([r[key] for r in runs[name]]) for key in ("share", "stall_ms_attacked"))
            cells.append(f"{share:.2f}, {number(stall, 2)}" if runs[name] else "-")
        kept.append({"what": what, "runs": runs})
        print(f"| {what} | {goal} | " + " | ".join(cells) + " |", flush=True)
    cells = []
    for name in HEADS:
        rate, stall = (middle([r[key] for r in alone[name]]) for key in ("per_s_alone", "stall_ms_alone"))
        cells.append(f"{number(rate)}, {number(stall, 2)}")
    print("| nothing: updates a second | | " + " | ".join(cells) + " |")
    print("\nThe part of its updates that the viewer still has, and its longest time without one, in milliseconds.")
    return ended(opts, kept, failed)


if __name__ == "__main__":
    sys.exit(main())
