#!/usr/bin/env python3
"""moving.py [--rounds 3] [--seconds 4] [--encoding raw] [--viewers 1] [--no-copyrect] - a moving picture of 1920 by 1080 by LibVNCServer's API, over vnc_server beside
LibVNCServer.

Viewers ask for changes in CopyRect and Raw, or Hextile, or without CopyRect; each asks anew when all have theirs. In each round the two take turns; a cell is the median of the
rounds: updates a second, milliseconds of the server's processor time for each, and the most memory that it had, in MB. In brackets
stands the ratio to LibVNCServer's."""
import argparse
import concurrent.futures
import os
import socket
import statistics
import struct
import subprocess
import sys
import time

HERE = os.path.dirname(os.path.abspath(__file__))
PROGRAMS = (("LibVNCServer, loop", "moving_lvs"), ("`rfb_compat.h` over `vnc_server`", "moving_compat"))
KINDS = (("all", "all places change"), ("places", "100 places change, all are marked"), ("scroll", "it moves up by 16 rows"))
ENCODINGS = {"raw": 0, "hextile": 5}
next_port = 6040


class Viewer:
    def __init__(self, port, encodings):
        self.socket = connected(port)
        self.socket.setsockopt(socket.IPPROTO_TCP, socket.TCP_NODELAY, 1)
        self.room, self.at, self.end = bytearray(1 << 24), 0, 0
        self.read(12)
        self.socket.sendall(b"RFB 003.008\n")
        self.read(self.read(1)[0])
        self.socket.sendall(b"\1")
        self.read(4)
        self.socket.sendall(b"\1")
        self.width, self.height = struct.unpack(">HH", self.read(4))
        self.read(16)
        self.read(struct.unpack(">I", self.read(4))[0])
        self.socket.sendall(struct.pack(f">BxH{len(encodings)}i", 2, len(encodings), *encodings))

    def read(self, count):
        """the next bytes, those of small parts, which are looked at"""
        self.wait_for(count)
        self.at += count
        return bytes(self.room[self.at - count:self.at]) if count < 1000 else b""

    def wait_for(self, count):
        """so many bytes are in the room, from `at` on"""
        if self.at + count > len(self.room):
            rest = self.end - self.at
            self.room[:rest] = self.room[self.at:self.end]
            self.at, self.end = 0, rest
        view = memoryview(self.room)
        while self.end - self.at < count:
            got = self.socket.recv_into(view[self.end:])
            if not got:
                raise EOFError
            self.end += got
        view.release()
        if self.end == self.at:
            self.at = self.end = 0

    def ask(self, incremental):
        self.socket.sendall(struct.pack(">BBHHHH", 3, incremental, 0, 0, self.width, self.height))

    def update(self):
        """reads an update: how many bytes its rectangles have, without their heads"""
        _, rects = struct.unpack(">BxH", self.read(4))
        return sum(self.rectangle() for _ in range(rects))

    def rectangle(self):
        _, _, w, h, encoding = struct.unpack(">HHHHi", self.read(12))
        if encoding == 5:
            return sum(self.tile(min(16, w - x) * min(16, h - y)) for y in range(0, h, 16) for x in range(0, w, 16))
        count = 4 if encoding == 1 else 4 * w * h
        self.read(count)
        return count

    def tile(self, places):
        """reads a tile of Hextile (RFC 6143, 7.7.4): how many bytes it has"""
        self.wait_for(1)
        kind = self.room[self.at]
        if kind & 1:
            count = 1 + 4 * places
        else:
            count = 1 + 4 * (kind >> 1 & 1) + 4 * (kind >> 2 & 1)
            if kind & 8:
                self.wait_for(count + 1)
                count += 1 + self.room[self.at + count] * (6 if kind & 16 else 2)
        self.read(count)
        return count


def connected(port):
    for _ in range(200):
        try:
            return socket.create_connection(("127.0.0.1", port))
        except OSError:
            time.sleep(0.02)
    raise OSError(f"nobody listens on {port}")


def cpu(pid):
    """seconds that the server's one thread ran, by the scheduler's clock: that of /proc/PID/stat counts in steps of 10 ms"""
    with open(f"/proc/{pid}/schedstat") as f:
        return int(f.read().split()[0]) / 1e9


def peak(pid):
    with open(f"/proc/{pid}/status") as f:
        return next(int(line.split()[1]) / 1024 for line in f if line.startswith("VmHWM"))


def measured(program, kind, encodings, viewers, seconds):
    global next_port
    next_port += 1
    with subprocess.Popen([f"{HERE}/build/{program}", "--port", str(next_port), "--what", kind]) as server, \
            concurrent.futures.ThreadPoolExecutor(viewers) as readers:
        try:
            all_of_them = [Viewer(next_port, encodings) for _ in range(viewers)]
            for viewer in all_of_them:
                viewer.ask(0)
                viewer.update()
            updates, pixels, began, used = 0, 0, time.monotonic(), cpu(server.pid)
            while time.monotonic() < began + seconds:
                for viewer in all_of_them:
                    viewer.ask(1)
                pixels += sum(readers.map(Viewer.update, all_of_them))
                updates += viewers
            took, used = time.monotonic() - began, cpu(server.pid) - used
            return updates / took, 1000 * used / updates, peak(server.pid), pixels / updates
        finally:
            server.terminate()


def main():
    parser = argparse.ArgumentParser(description=__doc__, formatter_class=argparse.RawDescriptionHelpFormatter)
    parser.add_argument("--rounds", type=int, default=3)
    parser.add_argument("--seconds", type=float, default=4)
    parser.add_argument("--encoding", choices=ENCODINGS, default="raw")
    parser.add_argument("--viewers", type=int, default=1)
    parser.add_argument("--no-copyrect", action="store_true")
    opts = parser.parse_args()
    encodings = [1] * (not opts.no_copyrect) + [ENCODINGS[opts.encoding]]
    print(f"| what | {' | '.join(name for name, _ in PROGRAMS)} |\n|---|---|---|")
    for kind, said in KINDS:
        runs = {program: [] for _, program in PROGRAMS}
        for _ in range(opts.rounds):
            for _, program in PROGRAMS:
                runs[program].append(measured(program, kind, encodings, opts.viewers, opts.seconds))
        middles = [[statistics.median(values) for values in zip(*runs[program])] for _, program in PROGRAMS]
        cells = []
        for rate, ms, most, pixels in middles:
            cells.append(f"{rate:.1f}, {ms:.2f} ms ({ms / middles[0][1]:.2f}), {most:.0f} MB, {pixels / 1000:.0f} KB")
        print(f"| {said} | {' | '.join(cells)} |", flush=True)


if __name__ == "__main__":
    sys.exit(main())
