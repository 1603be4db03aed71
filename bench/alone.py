#!/usr/bin/env python3
"""alone.py PROGRAM [--rounds 3] [--only REGEX] [--json FILE] - what PROGRAM takes by itself, as a table in Markdown.

PROGRAM is a built `vncdemo`. A cell is the median of the rounds; instructions are counted once, by valgrind."""
import functools
import os
import re
import resource
import subprocess
import sys

from marks import script
from runs import TEXT, VGA, ended, instructions, machine, middle, number, options, ours, under_load

ENCODINGS = ("raw", "rre", "hextile")
# The C library then gives each block of 64 KB and more back to the system when it is freed.
RETURNS = "env MALLOC_MMAP_THRESHOLD_=65536 "


class Failed(Exception):
    """a run that gave nothing"""


def found(command, viewers, load, key):
    result = under_load(command, VGA, viewers, load)
    if not result.get("ok"):
        raise Failed(result.get("first_failure"))
    return [result[k] for k in key] if isinstance(key, tuple) else result[key]


def rss(command, viewers):
    return found(command, viewers, ["idle", "--viewers", viewers], "rss_kb")


def further(command):
    return (rss(command, 64) - rss(command, 1)) / 63


def never_reads(command):
    alone, beside = found(command, 5, ["slow", "--viewers", 5, "--phase", 1], ("rss_kb_alone", "rss_kb_with_slow"))
    return beside - alone


def whole_updates(command, encoding):
    return found(command, 1, ["full", "--encoding", encoding, *TEXT], "updates_per_s_q3")


@functools.lru_cache(None)
def counted(command, viewers, load, few, many):
    """instructions for each further update or dot: all, and those outside of the C library"""
    counts = [instructions(command, VGA, viewers, [*load, "--viewers", viewers, "--count", n]) for n in (few, many)]
    if None in counts:
        raise Failed("valgrind counted nothing")
    return [(after - before) / (many - few) for before, after in zip(*counts)]


def played(program, viewers):
    """processor seconds of `play` over a script of 100,000 marks"""
    text = script(viewers, 100000).encode()
    before = resource.getrusage(resource.RUSAGE_CHILDREN)
    try:
        done = subprocess.run([program, "play"], input=text, stdout=subprocess.PIPE, check=False, timeout=120)
    except subprocess.TimeoutExpired as why:
        raise Failed("play took too long") from why
    after = resource.getrusage(resource.RUSAGE_CHILDREN)
    if done.returncode or done.stdout.count(b"\n") < 100000:
        raise Failed(f"play ended with status {done.returncode}")
    return after.ru_utime + after.ru_stime - before.ru_utime - before.ru_stime


def rows(program):
    """what is measured, its unit, a function for each value, how many rounds"""
    serve, one_thread = ours(program), ours(program, "--one-thread")
    yield "memory, one viewer", "MB", [lambda: rss(serve, 1) / 1024], True
    yield "memory of each further viewer", "KB", [lambda: further(serve)], True
    yield "the same, freed updates given back", "KB", [lambda: further(RETURNS + serve)], True
    yield "one that never reads, likewise", "KB", [lambda: never_reads(RETURNS + serve)], True
    yield "64 viewers that wait", "%", [
        lambda: 100 * found(serve, 64, ["idle", "--viewers", 64], "server_cpu_share")], True
    yield "whole updates a second: Raw, RRE, Hextile", "", [lambda e=e: whole_updates(serve, e) for e in ENCODINGS], True
    yield "instructions for each: Raw, RRE, Hextile", "million", [
        lambda e=e: counted(serve, 1, ("full", "--encoding", e, *TEXT), 2, 12)[0] / 1e6 for e in ENCODINGS], False
    for command, name in ((serve, ""), (one_thread, " with `--one-thread`")):
        for part, which in enumerate(("", ", without the C library's")):
            yield f"instructions for a dot{name}{which}: 1, 8, 32 viewers", "thousand", [
                lambda n=n, c=command, p=part: counted(c, n, ("dots",), 10, 110)[p] / 1e3 for n in (1, 8, 32)], False
    yield "100,000 marks: 1, 8, 64 viewers", "s", [lambda n=n: played(program, n) for n in (1, 8, 64)], True
    yield "the program", "MB", [lambda: os.path.getsize(program) / 1048576], False


def main():
    opts = options(__doc__)
    program = os.path.abspath(opts.program)
    print(f"{machine()}; {opts.rounds} rounds\n", flush=True)
    print("| what | value |\n|---|---|", flush=True)
    kept, failed = [], []
    for what, unit, values, again in rows(program):
        if not re.search(opts.only, what):
            continue
        cells, all_runs = [], []
        for value in values:
            runs = []
            for _ in range(opts.rounds if again else 1):
                try:
                    runs.append(value())
                except Failed as why:
                    failed.append(f"{what}: {why}")
            all_runs.append(runs)
            cells.append(number(middle(runs)))
        kept.append({"what": what, "unit": unit, "runs": all_runs})
        print(f"| {what} | {', '.join(cells)}{' ' * bool(unit)}{unit} |", flush=True)
    return ended(opts, kept, failed)


if __name__ == "__main__":
    sys.exit(main())
