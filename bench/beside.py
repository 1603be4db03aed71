#!/usr/bin/env python3
"""beside.py PROGRAM [--rounds 3] [--only REGEX] [--json FILE] - PROGRAM beside LibVNCServer, as a table in Markdown.

PROGRAM is a built `vncdemo`. In each round the servers take turns, and a cell is the median of the rounds. In brackets
stands the ratio to the first column."""
import re
import sys

from runs import HD, TEXT, VGA, ended, in_turns, lvs, machine, middle, number, options, ours, spread

HEADS = {"loop": "LibVNCServer, loop", "one-thread": "`vncdemo serve --one-thread`", "vncdemo": "`vncdemo serve`",
         "threads": "LibVNCServer, threads"}
OURS = ("one-thread", "vncdemo")
SMALL = (64, 48)


def of(result, key):
    for part in key.split("."):
        result = result.get(part) if isinstance(result, dict) else None
    return result


def two(v):
    return number(v, 2)


# what is told of a load, and how it is written
WHOLE = (("updates_per_s_q3", number), ("cpu_us_per_update_q1", lambda v: number(v / 1000)))
DOT = (("latency_ms.last_viewer_median", two), ("cpu_us_per_update_q1", two))
RARE_DOT = (("latency_ms.last_viewer_median", two), ("cpu_us_per_update", two))
SLOW = (("others_per_s_with_slow", number), ("ratio", lambda v: f"{100 * v:.0f}"))
IDLE = (("server_cpu_share", lambda v: f"{100 * v:.2f}"),)
OPENING = (("hello_ms.median", two), ("first_update_ms.median", two))


def viewers(n):
    return "1 viewer" if n == 1 else f"{n:,} viewers"


def rows():
    """what is measured, the servers that can do it, the screen, how many viewers, the load, what is told of it"""
    for bits, name in ((32, ""), (16, ", 16 bits")):
        for encoding in ("raw", "rre", "hextile"):
            for n in (1, 8) if bits == 32 else (1,):
                yield (f"{encoding.upper() if encoding == 'rre' else encoding.capitalize()}, {viewers(n)}{name}", HEADS, HD, n,
                       ["full", "--encoding", encoding, "--format", bits, "--viewers", n, "--change", *TEXT], WHOLE)
    # by threads `vncdemo` serves at most 64 viewers; of LibVNCServer's each takes three handles, and it can wait for 1,024
    for n, able in ((1, HEADS), (8, HEADS), (32, HEADS), (128, ("loop", "one-thread", "threads"))):
        yield f"a dot to {viewers(n)}", able, VGA, n, ["dots", "--rate", 200, "--viewers", n], DOT
    for n, able in ((32, HEADS), (1000, ("loop", "one-thread"))):
        yield (f"a dot to {viewers(n)} of 64 by 48, 5 a second", able, SMALL, n,
               ["dots", "--rate", 5, "--viewers", n, "--seconds", 4], RARE_DOT)
    yield "four viewers and one that never reads", HEADS, VGA, 5, ["slow", "--viewers", 5, "--phase", 2], SLOW
    yield "8 viewers that wait", HEADS, VGA, 8, ["idle", "--viewers", 8], IDLE
    yield "an opening", HEADS, VGA, 20, ["churn", "--conns", 20], OPENING


def cell(values, base, told):
    """the numbers of a cell, each with its ratio to the first column's, where that is given"""
    words = []
    for value, first, (_, written) in zip(values, base or [None] * len(values), told):
        ratio = f" ({value / first:.2f})" if first and value is not None else ""
        words.append("-" if value is None else written(value) + ratio)
    return ", ".join(words)


def main():
    opts = options(__doc__)
    servers = [("loop", lvs("loop")), ("one-thread", ours(opts.program, "--one-thread")), ("vncdemo", ours(opts.program)),
               ("threads", lvs("thread"))]
    print(f"{machine()}; {opts.rounds} rounds\n", flush=True)
    print(f"| what | {' | '.join(HEADS[name] for name, _ in servers)} |\n|---|---|---|---|---|", flush=True)
    kept, failed, stolen, apart = [], [], 0.0, []
    for what, able, size, many, load, told in rows():
        if not re.search(opts.only, what):
            continue
        runs, said = in_turns([s for s in servers if s[0] in able], opts.rounds, size, many, load)
        failed += [f"{what}, {line}" for line in said]
        cells, base = [], None
        for name, _ in servers:
            values = [[v for v in (of(r, key) for r in runs.get(name, [])) if v is not None] for key, _ in told]
            middles = [middle(v) for v in values]
            if not values[0]:
                cells.append("-")
                continue
            cells.append(cell(middles, base if name in OURS else None, told))
            base = middles if name == "loop" else base
            apart.append(spread(values[0]))
            stolen = max(stolen, *(r["stolen"] for r in runs[name]))
        kept.append({"what": what, "runs": runs})
        print(f"| {what} | " + " | ".join(cells) + " |", flush=True)
    print(f"\nRounds differ in a cell's first number by {100 * (middle(apart) or 0):.0f} % in the middle, "
          f"{100 * max(apart, default=0):.0f} % at most. The host took up to {100 * stolen:.0f} % of the processors' time.")
    return ended(opts, kept, failed)


if __name__ == "__main__":
    sys.exit(main())
