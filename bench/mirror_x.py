#!/usr/bin/env python3
"""mirror_x.py PROGRAM [--seconds 5] [--viewers 32] [--only REGEX]: `vncdemo mirror` in front of Xvnc and of x11vnc on Xvfb, 1920 by 1080.

For each of the two it prints by how much a dot comes later to a viewer of the mirror than to one of the source, on the same dots; the
processor time of source and mirror for a second in which a square of 100 by 100 changes each 40 milliseconds, with one viewer and with many
behind the mirror, and of the source that serves as many itself; and what a viewer of the mirror that never reads leaves to another that asks for all over and over.
It wants Xvnc, Xvfb, x11vnc and a C compiler with Xlib. The status is 1 where a figure isn't what it should be."""
import argparse
import glob
import os
import re
import selectors
import socket
import statistics
import struct
import subprocess
import sys
import tempfile
import time

from mirror import Mirror

WIDTH, HEIGHT = 1920, 1080
FORMAT = bytes([32, 24, 0, 1, 0, 255, 0, 255, 0, 255, 16, 8, 0, 0, 0, 0])
WHOLE = struct.pack(">BBHHHH", 3, 0, 0, 0, WIDTH, HEIGHT)
CHANGES = struct.pack(">BBHHHH", 3, 1, 0, 0, WIDTH, HEIGHT)
HERE = os.path.dirname(os.path.abspath(__file__))


def free_port():
    with socket.create_server(("127.0.0.1", 0)) as it:
        return it.getsockname()[1]


def spent(pid):
    """The processor time of a process's threads, in milliseconds."""
    return sum(int(open(it).read().split()[0]) for it in glob.glob(f"/proc/{pid}/task/*/schedstat")) / 1e6


class Server:
    """A display, the server that shows it, and what draws on it."""

    def __init__(self, kind, draws):
        self.port, display = free_port(), f":{os.getpid() % 10_000 + (100 if kind == 'Xvnc' else 200)}"
        quiet = {"stdout": subprocess.DEVNULL, "stderr": subprocess.DEVNULL}
        if kind == "Xvnc":
            words = ["Xvnc", display, "-geometry", f"{WIDTH}x{HEIGHT}", "-depth", "24", "-SecurityTypes", "None", "-rfbport", str(self.port), "-localhost"]
            self.all = [subprocess.Popen(words, **quiet)]
        else:
            self.all = [subprocess.Popen(["Xvfb", display, "-screen", "0", f"{WIDTH}x{HEIGHT}x24"], **quiet)]
            time.sleep(1)
            words = ["x11vnc", "-display", display, "-rfbport", str(self.port), "-forever", "-shared", "-nopw", "-localhost", "-quiet", "-nocursor"]
            self.all.append(subprocess.Popen(words, **quiet))
        self.server = self.all[-1]
        time.sleep(2)
        self.drawer = subprocess.Popen([draws], env=dict(os.environ, DISPLAY=display), stdin=subprocess.PIPE, stdout=subprocess.PIPE, text=True)
        self.all.append(self.drawer)
        self.drawer.stdout.readline()

    def draw(self, line):
        self.drawer.stdin.write(line + "\n")
        self.drawer.stdin.flush()
        self.drawer.stdout.readline()

    def end(self):
        for it in reversed(self.all):
            it.kill()
            it.wait()


class Viewer:
    """A viewer of 32 bits that keeps nothing of what it is shown: in Hextile, or in Raw alone."""

    def __init__(self, port, hextile=False):
        self.stream = socket.create_connection(("127.0.0.1", port))
        self.stream.settimeout(20)
        self.stream.setsockopt(socket.IPPROTO_TCP, socket.TCP_NODELAY, 1)
        self.file = self.stream.makefile("rb", 1 << 16)
        self.take(12)
        self.stream.sendall(b"RFB 003.008\n")
        self.take(self.take(1)[0])
        self.stream.sendall(b"\x01")
        self.take(4)
        self.stream.sendall(b"\x01")
        self.take(struct.unpack(">I", self.take(24)[20:])[0])
        wanted = (5, 0) if hextile else (0,)
        self.stream.sendall(bytes(4) + FORMAT + struct.pack(f">BxH{len(wanted)}i", 2, len(wanted), *wanted))

    def take(self, count):
        taken = self.file.read(count)
        if len(taken) < count:
            raise EOFError
        return taken

    def tile(self, places):
        """Passes over a tile of Hextile (RFC 6143, 7.7.4)."""
        said = self.take(1)[0]
        if said & 1:
            self.take(4 * places)
            return
        self.take(4 * bool(said & 2) + 4 * bool(said & 4))
        if said & 8:
            self.take(self.take(1)[0] * (6 if said & 16 else 2))

    def rectangle(self):
        _, _, w, h, encoding = struct.unpack(">HHHHi", self.take(12))
        if encoding == 0:
            self.take(4 * w * h)
            return
        for y in range(0, h, 16):
            for x in range(0, w, 16):
                self.tile(min(16, w - x) * min(16, h - y))

    def message(self):
        """Reads a message, and returns whether it was an update."""
        kind = self.take(1)[0]
        if kind == 3:
            self.take(struct.unpack(">3xI", self.take(7))[0])
        if kind:
            return False
        for _ in range(struct.unpack(">xH", self.take(3))[0]):
            self.rectangle()
        return True

    def begin(self):
        self.stream.sendall(WHOLE)
        while not self.message():
            pass
        self.stream.sendall(CHANGES)


def settle(viewers, seconds=1.0):
    """Has viewers take what comes, and ask for more, for a while."""
    selector = selectors.DefaultSelector()
    for viewer in viewers:
        selector.register(viewer.stream, selectors.EVENT_READ, viewer)
    until = time.monotonic() + seconds
    while time.monotonic() < until:
        for key, _ in selector.select(max(0.0, until - time.monotonic())):
            if key.data.message():
                key.data.stream.sendall(CHANGES)


def first_update(viewers):
    """When each of them had its next update."""
    selector, came = selectors.DefaultSelector(), {}
    for viewer in viewers:
        selector.register(viewer.stream, selectors.EVENT_READ, viewer)
    while len(came) < len(viewers):
        for key, _ in selector.select(10) or [(None, None)]:
            if key.data.message():
                came[key.data] = time.monotonic()
                key.data.stream.sendall(CHANGES)
                selector.unregister(key.data.stream)
    return [came[viewer] for viewer in viewers]


def lateness(server, mirror, dots=200):
    direct, behind = Viewer(server.port), Viewer(mirror.port)
    found = []
    for viewer in (direct, behind):
        viewer.begin()
    settle([direct, behind])
    for i in range(dots):
        time.sleep(0.03)
        server.draw(f"square {8 * (i % 200)} {8 * (i // 200)} 8 {1 + i * 7919 % 0xffffff}")
        first, second = first_update([direct, behind])
        found.append(1000 * (second - first))
    return statistics.median(found), sorted(found)[dots * 95 // 100]


def costs(server, port, count, pids, seconds, hextile):
    """The processor time of these processes for a second of a square of 100 by 100 each 40 milliseconds, with so many viewers at a port."""
    viewers = [Viewer(port, hextile) for _ in range(count)]
    for viewer in viewers:
        viewer.begin()
    settle(viewers)
    before = [spent(pid) for pid in pids]
    began = time.monotonic()
    i = 0
    while time.monotonic() - began < seconds:
        server.draw(f"square {8 * (i % 200)} 400 100 {1 + i * 7919 % 0xffffff}")
        settle(viewers, 0.04)
        i += 1
    taken = time.monotonic() - began
    found = [(spent(pid) - was) / taken for pid, was in zip(pids, before)]
    for viewer in viewers:
        viewer.file.close()
        viewer.stream.close()
    time.sleep(3)  # x11vnc is busy with them for a while
    return found


def rate(viewer, seconds, room=bytearray(16 + 4 * WIDTH * HEIGHT)):
    """How many whole updates of one rectangle it takes in a second."""
    count, began = 0, time.monotonic()
    while time.monotonic() - began < seconds:
        viewer.stream.sendall(WHOLE)
        viewer.stream.recv_into(room, len(room), socket.MSG_WAITALL)
        count += 1
    return count / (time.monotonic() - began)


def left_by_stuck(mirror, turns=30, seconds=0.2):
    """What is left of a viewer's rate beside one that asked for much and reads nothing: its rate there, over the mean of those just before and just
    behind, when the other is one that asks for nothing; of so many turns the middle one. So neither what else the machine does nor a rate that
    drifts counts for much."""
    viewer = Viewer(mirror.port)
    viewer.stream.settimeout(None)
    rate(viewer, 5 * seconds)

    def beside(asked):
        other = Viewer(mirror.port)
        other.stream.sendall(asked)
        rate(viewer, seconds / 2)
        found = rate(viewer, seconds)
        other.file.close()
        other.stream.close()
        return found

    idle, left = beside(b""), []
    for _ in range(turns):
        stuck, next_idle = beside(WHOLE * 50), beside(b"")
        left.append(2 * stuck / (idle + next_idle))
        idle = next_idle
    viewer.file.close()
    viewer.stream.close()
    return statistics.median(left)


def main():
    parser = argparse.ArgumentParser(description=__doc__)
    parser.add_argument("program")
    parser.add_argument("--seconds", type=float, default=5)
    parser.add_argument("--viewers", type=int, default=32)
    parser.add_argument("--only", default="")
    options = parser.parse_args()
    failed = False
    with tempfile.TemporaryDirectory() as room:
        draws = os.path.join(room, "x_draws")
        subprocess.run([os.environ.get("CC", "cc"), "-O2", "-o", draws, os.path.join(HERE, "x_draws.c"), "-lX11"], check=True)
        for kind in ("Xvnc", "x11vnc"):
            if not re.search(options.only, kind):
                continue
            server = Server(kind, draws)
            mirror = Mirror(options.program, f"127.0.0.1:{server.port}")
            mirror.line("source came: ")
            time.sleep(1)
            median, most = lateness(server, mirror)
            print(f"{kind}: a dot comes {median:.2f} ms later behind the mirror, 95 of 100 within {most:.2f} ms", flush=True)
            pids = [server.server.pid, mirror.process.pid]
            for name, hextile in (("Raw", False), ("Hextile", True)):
                few = costs(server, mirror.port, 1, pids, options.seconds, hextile)
                many = costs(server, mirror.port, options.viewers, pids, options.seconds, hextile)
                alone = costs(server, server.port, options.viewers, pids[:1], options.seconds, hextile)[0]
                print(f"{kind}, viewers in {name}, ms of the processor a second: {few[0]:.1f} and the mirror {few[1]:.1f} with 1 viewer behind it; "
                      f"{many[0]:.1f} and {many[1]:.1f} with {options.viewers}; {alone:.1f} where it serves {options.viewers} itself", flush=True)
                failed |= many[0] > 1.2 * few[0] + 5 or sum(many) > alone
            left = left_by_stuck(mirror)
            print(f"{kind}: one that never reads leaves {left:.2f}", flush=True)
            failed |= median >= 2 or left < 0.95
            server.end()
            mirror.end()
    return int(failed)


if __name__ == "__main__":
    sys.exit(main())
