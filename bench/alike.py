#!/usr/bin/env python3
"""alike.py PROGRAM [--rounds 3] [--only REGEX] [--json FILE] - whole updates to viewers that are alike, as a table in Markdown: PROGRAM, a built
`vncdemo`, beside LibVNCServer's loop, and beside a program that only writes as many bytes to as many sockets.

Before each round of updates one place is painted, so the picture changes; then all viewers ask for all of it at once. A cell is the median of
the rounds: milliseconds of the server's processor for an update, and its peak memory in MB. In brackets stand the ratios of ours to
LibVNCServer's, and to writing alone."""
import json
import os
import re
import subprocess
import sys

from runs import HD, HERE, TEXT, ended, in_turns, lvs, machine, middle, number, options, ours

WRITES = os.path.join(HERE, "build", "writes")
KINDS = (("Raw, 16 bits", ["--encoding", "raw", "--format", 16]), ("RRE", ["--encoding", "rre"]), ("Hextile", ["--encoding", "hextile"]),
         ("Raw, the other order of bytes", ["--encoding", "raw", "--swapped"]))


def rows():
    for name, words in KINDS:
        for viewers in (1, 8, 32, 128):
            yield name, viewers, words
    yield "four kinds, two viewers each", 8, ["--mix"]


def written_alone(size, viewers):
    """milliseconds of the processor for writing so many bytes to each of so many sockets"""
    try:
        done = subprocess.run([WRITES, str(size), str(viewers), "1"], stdout=subprocess.PIPE, timeout=120, check=True)
    except subprocess.SubprocessError:
        return None
    return json.loads(done.stdout.decode())["cpu_us_per_update"] / 1000


def of(runs, name, key, by=1):
    return middle([run[key] / by for run in runs.get(name, []) if run.get(key)])


def cell(time, memory):
    return "-" if time is None else f"{number(time, 2)}, {number(memory, 0)}"


def main():
    opts = options(__doc__)
    servers = [("loop", lvs("loop")), ("ours", ours(opts.program, "--one-thread"))]
    print(f"{machine()}; {opts.rounds} rounds\n\n| whole updates | LibVNCServer, loop | `serve --one-thread` | writing alone |\n|---|---|---|---|",
          flush=True)
    kept, failed = [], []
    for name, viewers, words in rows():
        what = f"{name}, {viewers} viewer{'s' * (viewers > 1)}"
        if not re.search(opts.only, what):
            continue
        runs, said = in_turns(servers, opts.rounds, HD, viewers, ["full", "--viewers", viewers, "--change", *words, *TEXT])
        failed += [f"{what}, {line}" for line in said]
        times = {server: of(runs, server, "cpu_us_per_update", 1000) for server, _ in servers}
        peaks = {server: of(runs, server, "hwm_kb", 1024) for server, _ in servers}
        size = of(runs, "ours", "bytes_per_update")
        alone = written_alone(int(size), viewers) if size else None
        ratios = [f"{times['ours'] / it:.2f}" if it and times["ours"] else "-" for it in (times["loop"], alone)]
        kept.append({"what": what, "runs": runs, "writing_ms": alone})
        print(f"| {what} | {cell(times['loop'], peaks['loop'])} | {cell(times['ours'], peaks['ours'])} ({ratios[0]}, {ratios[1]}) | "
              f"{'-' if alone is None else number(alone, 3)} |", flush=True)
    return ended(opts, kept, failed)


if __name__ == "__main__":
    sys.exit(main())
