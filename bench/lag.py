#!/usr/bin/env python3
"""lag.py PROGRAM [--viewers 200] [--places 60000] [--threads]: viewers that had the whole picture of 640 by 480 don't ask while so many places, each by itself,
are painted; then all ask at once. Beside LibVNCServer's loop: seconds of the server's processor for the painting, and from then on, and the
longest that another viewer waits for an update of one place meanwhile."""
import argparse
import os
import random
import struct
import threading
import time

from runs import VGA, lvs, ours, start, stop
from soak import Viewer


def seconds_of(server):
    with open(f"/proc/{server.pid}/stat", encoding="ascii") as it:
        fields = it.read().rpartition(")")[2].split()
    return (int(fields[11]) + int(fields[12])) / os.sysconf("SC_CLK_TCK")


def asks(viewer):
    """Asks for one place, and waits for it."""
    viewer.ask(0, VGA[0] - 1, VGA[1] - 1, 1, 1)
    viewer.update()


def pings(viewer, waits, is_over):
    while not is_over.is_set():
        began = time.monotonic()
        asks(viewer)
        waits.append(time.monotonic() - began)
        time.sleep(0.005)


def run(command, viewers, places):
    server, port, log = start(command, VGA, viewers + 2)
    try:
        time.sleep(0.2)
        lagging = [Viewer(port, seconds=300) for _ in range(viewers)]
        for it in lagging:
            it.picture()
        painter, other = Viewer(port, seconds=300), Viewer(port, seconds=300)
        spots = [(x, y) for y in range(0, VGA[1], 2) for x in range(0, VGA[0], 2)]
        random.Random(1).shuffle(spots)
        before = seconds_of(server)
        for at in range(0, places, 50):
            painter.say(b"".join(struct.pack(">BBHH", 5, 1, x, y) for x, y in spots[at : min(at + 50, places)]))
            time.sleep(0.01)
        asks(painter)
        painted = seconds_of(server)
        waits, is_over = [], threading.Event()
        pinging = threading.Thread(target=pings, args=(other, waits, is_over), daemon=True)
        pinging.start()
        for it in lagging:
            it.ask(1)
        time.sleep(3)
        is_over.set()
        pinging.join(60)
        return painted - before, seconds_of(server) - painted, max(waits)
    finally:
        stop(server)
        log.close()


def main():
    words = argparse.ArgumentParser(description=__doc__)
    words.add_argument("program")
    words.add_argument("--viewers", type=int, default=200)
    words.add_argument("--places", type=int, default=60000)
    words.add_argument("--threads", action="store_true", help="serve with threads, too: at most 62 viewers")
    asked = words.parse_args()
    servers = [("LibVNCServer, loop", lvs("loop")), ("serve --one-thread", ours(asked.program, "--one-thread"))]
    if asked.threads:
        servers.append(("serve", ours(asked.program)))
    for name, command in servers:
        painting, answering, wait = run(command, asked.viewers, min(asked.places, VGA[0] * VGA[1] // 4))
        print(f"{name}: painting {painting:.2f} s, then {answering:.2f} s; another viewer waits {wait:.2f} s at most", flush=True)


if __name__ == "__main__":
    main()
