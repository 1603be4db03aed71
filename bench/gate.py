#!/usr/bin/env python3
"""gate.py [COMMAND..]: runs the gate, `rt ci --anew` unless a command is given, at the top of a clean clone, and prints what it took as a
table: a line for each crate, in seconds of processor time (user and system), and the command's own account below. `proof` is the crate's
own check, `tests` that of its test functions, `edits` its must-fail edits, `build` compiling and linking, `run` its programs and tests.
It samples /proc four times a second; what ends between two samples is in the last line alone. The status is the command's."""
import collections
import os
import resource
import subprocess
import sys
import time

TICKS = os.sysconf("SC_CLK_TCK")
KINDS = ("proof", "tests", "edits", "build", "run")


def text_of(path):
    try:
        with open(path, "rb") as it:
            return it.read().decode(errors="replace")
    except OSError:
        return ""


def stat_of(pid):
    """A process's parent, when it started, and its processor time in seconds."""
    fields = text_of(f"/proc/{pid}/stat").rpartition(")")[2].split()
    return (int(fields[1]), fields[19], (int(fields[11]) + int(fields[12])) / TICKS) if fields else None


def crate_and_kind(pid):
    """Which crate a process works for, and at what: None where it isn't known."""
    words = text_of(f"/proc/{pid}/cmdline").split("\0")
    try:
        folder = os.readlink(f"/proc/{pid}/cwd")
    except OSError:
        return None
    program = os.path.basename(words[0])
    if "/rt-run-" in words[0] or "/rt-run-" in folder:
        name = next((os.path.basename(it) for it in words if "/rt-run-" in it), program)
        return name.partition(".")[0].removesuffix("_tests"), "run"
    name = words[words.index("--crate-name") + 1] if "--crate-name" in words else None
    if not name and "/crates/" in folder:
        name = folder.partition("/crates/")[2].partition("/")[0]
    if not name or not program.startswith(("rattle", "clang", "ld")):
        return None
    if program != "rattle" or "--crate-checked" in words:
        return name, "build"
    if "/rt-edit-" in folder:
        return name, "edits"
    return name, "tests" if "--test" in words else "proof"


def sample(root, seen, labels):
    """Notes the processor time of each process below root."""
    stats = {int(it): stat_of(it) for it in os.listdir("/proc") if it.isdigit()}
    for pid, found in stats.items():
        if not found:
            continue
        above = pid
        while above > 1 and above != root and stats.get(above):
            above = stats[above][0]
        if above != root or pid == root:
            continue
        key = pid, found[1]
        seen[key] = found[2]
        label = crate_and_kind(pid)
        if label:
            labels[key] = label


def table_of(seen, labels):
    """The table's lines, the dearest crate first."""
    taken = collections.defaultdict(collections.Counter)
    for key, seconds in seen.items():
        if key in labels:
            name, kind = labels[key]
            taken[name][kind] += seconds
    row = lambda name, by: f"| {name} | " + " | ".join(f"{by[it]:.0f}" if by[it] >= 0.5 else "" for it in KINDS) + f" | {sum(by.values()):.0f} |"
    yield "| crate | " + " | ".join(KINDS) + " | all |"
    yield "|---" + "|---:" * (len(KINDS) + 1) + "|"
    for name, by in sorted(taken.items(), key=lambda it: -sum(it[1].values())):
        yield row(f"`{name}`", by)
    whole = collections.Counter()
    for by in taken.values():
        whole.update(by)
    yield row("all", whole)


def main(command):
    began, seen, labels = time.monotonic(), {}, {}
    with subprocess.Popen(command, stdin=subprocess.DEVNULL, stdout=sys.stderr) as run:
        while run.poll() is None:
            sample(run.pid, seen, labels)
            time.sleep(0.25)
    used = resource.getrusage(resource.RUSAGE_CHILDREN)
    print("\n".join(table_of(seen, labels)))
    print(f"\n{' '.join(command)}: {used.ru_utime / 60:.1f} minutes user and {used.ru_stime / 60:.1f} system, {(time.monotonic() - began) / 60:.1f} of the clock")
    return run.returncode


if __name__ == "__main__":
    sys.exit(main(sys.argv[1:] or ["rt", "ci", "--anew"]))
