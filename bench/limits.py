#!/usr/bin/env python3
"""limits.py PROGRAM: `vncdemo serve`, by threads and in one thread, where the system refuses descriptors, and by threads where it refuses memory,
so that none can be started. Viewers come one after the other until one isn't served. Those that are in have to be served on, another has to get
in once two have left, and the run has to end well, judged by `--check` where there is memory. The status is 1 where it doesn't."""
import re
import resource
import subprocess
import sys
import time

from soak import HEIGHT, WIDTH, Viewer, Wrong

SIZE = ["--width", str(WIDTH), "--height", str(HEIGHT)]


class Server:
    def __init__(self, program, way, viewers, limit, amount):
        words = [program, "serve", "--port", "0", "--viewers", str(viewers), *SIZE, *way]
        self.process = subprocess.Popen(words, stdin=subprocess.DEVNULL, stdout=subprocess.PIPE, stderr=subprocess.PIPE, text=True,
                                        preexec_fn=lambda: resource.setrlimit(limit, (amount, amount)))
        said = re.search(r"is served on 127\.0\.0\.1:(\d+)", self.process.stderr.readline())
        if not said:
            raise Wrong("nothing is served")
        self.port = int(said.group(1))

    def comes(self, seconds):
        """A viewer that had its picture within some seconds, or None."""
        viewer = None
        try:
            viewer = Viewer(self.port, seconds=seconds)
            viewer.picture()
            return viewer
        except (OSError, EOFError, Wrong):
            if viewer:
                viewer.close()
            return None

    def ends(self, seconds=20):
        """How it ended, and its last line."""
        said = self.process.communicate(timeout=seconds)[0].splitlines()
        return self.process.returncode, said[-1] if said else ""


def serves(viewer):
    try:
        viewer.picture()
        return True
    except (OSError, EOFError, Wrong):
        return False


def run(program, way, limit, most, viewers):
    """A server of so many viewers with so much of something, until all have come and left."""
    server = Server(program, way, viewers, limit, most)
    there = []
    while len(there) < viewers and (one := server.comes(1)):
        there.append(one)
    if not 0 < len(there) < viewers:
        raise Wrong(f"{len(there)} viewers are served")
    stay = sum(serves(it) for it in there)
    if limit == resource.RLIMIT_NOFILE and stay < len(there):
        raise Wrong(f"of {len(there)} viewers that were in {stay} are served on")
    for it in there[:2]:
        it.close()
    if limit == resource.RLIMIT_NOFILE and not server.comes(10):
        raise Wrong("nobody gets in once two have left")
    for it in there[2:]:
        it.close()
    while server.process.poll() is None:
        last = server.comes(0.5)
        if last:
            last.close()
    return len(there), stay, *server.ends()


def main():
    program, wrong = sys.argv[1], 0
    runs = [("20 descriptors, by threads", ["--check"], resource.RLIMIT_NOFILE, 20), ("20 descriptors, in one thread", ["--one-thread", "--check"], resource.RLIMIT_NOFILE, 20),
            ("100 MB, by threads", [], resource.RLIMIT_AS, 100_000_000)]
    for name, way, limit, most in runs:
        began = time.monotonic()
        try:
            came, stay, status, last = run(program, way, limit, most, 40)
            is_well = status == 0 and (last == "finish ok" or "--check" not in way)
            said = f"{came} viewers come, {stay} are served on; it ends with {status}, {last}"
        except (Wrong, subprocess.TimeoutExpired) as why:
            is_well, said = False, str(why)
        wrong += not is_well
        print(f"{'ok   ' if is_well else 'WRONG'} {name}: {said}; {time.monotonic() - began:.1f} s", flush=True)
    return 1 if wrong else 0


if __name__ == "__main__":
    sys.exit(main())
