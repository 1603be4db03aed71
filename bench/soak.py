#!/usr/bin/env python3
"""soak.py PROGRAM [--minutes 20] [--visitors 40] [--seed 1] [--threads]: churn for `vncdemo serve --forever`, by one thread, or with --threads
by two a viewer, where 15 visitors are there at once unless --visitors says otherwise. Visitors of all versions, encodings and several formats
come and go, politely, by a reset, in the middle of a message, with nonsense, or without a word, while places are painted. Each whole picture is
judged: what was painted before it was asked for is white, and what was not painted is black. A line a minute says what the server takes, and how
long another viewer waited for an update at most. The status is 1 where a picture was wrong, where the server ended, or where its memory grew
behind the first minute."""
import argparse
import os
import random
import re
import socket
import struct
import subprocess
import sys
import threading
import time

WIDTH, HEIGHT = 320, 200
VERSIONS = (b"RFB 003.003\n", b"RFB 003.007\n", b"RFB 003.008\n")
RAW, RRE, HEXTILE = 0, 2, 5
FORMATS = {32: (255, 255, 255, 16, 8, 0), 16: (31, 63, 31, 11, 5, 0), 8: (7, 7, 3, 0, 3, 6)}
GROWTH = 8_000_000  # how many bytes of memory may come behind the first minute
PAINTED = WIDTH * HEIGHT // 8  # how many places are painted at most; then these are painted again


class Wrong(Exception):
    pass


class Viewer:
    """A viewer by RFC 6143, which keeps what it shows."""

    def __init__(self, port, version=2, bits=32, encoding=RAW, seconds=30):
        self.stream = socket.create_connection(("127.0.0.1", port), seconds)
        self.stream.setsockopt(socket.IPPROTO_TCP, socket.TCP_NODELAY, 1)
        self.held = b""
        self.size = bits // 8
        if self.take(12) != VERSIONS[2]:
            raise Wrong("another version")
        self.say(VERSIONS[version])
        self.open(version)
        self.say(b"\x01")
        self.width, self.height = struct.unpack(">HH", self.take(4))
        self.take(16)
        self.take(struct.unpack(">I", self.take(4))[0])
        red, green, blue, *shifts = FORMATS[bits]
        self.white = (red << shifts[0] | green << shifts[1] | blue << shifts[2]).to_bytes(self.size, "little")
        self.say(struct.pack(">B3xBBBBHHHBBB3x", 0, bits, bits, 0, 1, red, green, blue, *shifts))
        self.say(struct.pack(">BxHi", 2, 1, encoding))
        self.shown = bytearray(self.width * self.height * self.size)

    def open(self, version):
        """7.1.2 and 7.1.3"""
        if version == 0:
            if struct.unpack(">I", self.take(4))[0] != 1:
                raise Wrong("turned away")
            return
        types = self.take(self.take(1)[0])
        if b"\x01" not in types:
            raise Wrong("turned away")
        self.say(b"\x01")
        if version == 2 and self.take(4) != bytes(4):
            raise Wrong("no security result")

    def say(self, message):
        self.stream.sendall(message)

    def take(self, count):
        while len(self.held) < count:
            piece = self.stream.recv(1 << 18)
            if not piece:
                raise EOFError
            self.held += piece
        taken, self.held = self.held[:count], self.held[count:]
        return taken

    def ask(self, incremental, x=0, y=0, width=None, height=None):
        self.say(struct.pack(">BBHHHH", 3, incremental, x, y, width or self.width, height or self.height))

    def fill(self, x, y, width, height, pixel):
        row = pixel * width
        for at in range(y, y + height):
            start = (at * self.width + x) * self.size
            self.shown[start : start + len(row)] = row

    def put(self, x, y, width, height):
        for at in range(y, y + height):
            start = (at * self.width + x) * self.size
            self.shown[start : start + width * self.size] = self.take(width * self.size)

    def rre(self, x, y, width, height):
        """7.7.3"""
        (count,) = struct.unpack(">I", self.take(4))
        self.fill(x, y, width, height, self.take(self.size))
        for _ in range(count):
            pixel = self.take(self.size)
            left, top, columns, rows = struct.unpack(">HHHH", self.take(8))
            self.fill(x + left, y + top, columns, rows, pixel)

    def hextile(self, x, y, width, height):
        """7.7.4"""
        back = fore = bytes(self.size)
        for top in range(y, y + height, 16):
            for left in range(x, x + width, 16):
                columns, rows = min(16, x + width - left), min(16, y + height - top)
                mask = self.take(1)[0]
                if mask & 1:
                    self.put(left, top, columns, rows)
                    continue
                back = self.take(self.size) if mask & 2 else back
                fore = self.take(self.size) if mask & 4 else fore
                self.fill(left, top, columns, rows, back)
                for _ in range(self.take(1)[0] if mask & 8 else 0):
                    pixel = self.take(self.size) if mask & 16 else fore
                    place, size = self.take(2)
                    self.fill(left + (place >> 4), top + (place & 15), (size >> 4) + 1, (size & 15) + 1, pixel)

    def update(self):
        """Reads on to an update, and says how many places it has (7.6)."""
        while True:
            kind = self.take(1)[0]
            if kind == 2:
                continue
            if kind == 3:
                self.take(3)
                self.take(struct.unpack(">I", self.take(4))[0])
                continue
            if kind != 0:
                raise Wrong(f"a message of type {kind}")
            _, count = struct.unpack(">BH", self.take(3))
            area = 0
            for _ in range(count):
                x, y, width, height, encoding = struct.unpack(">HHHHi", self.take(12))
                {RAW: self.put, RRE: self.rre, HEXTILE: self.hextile}[encoding](x, y, width, height)
                area += width * height
            return area

    def picture(self):
        """Asks for everything, and reads until all of it has come."""
        self.ask(0)
        left = self.width * self.height
        while left > 0:
            left -= self.update()
            if left > 0:
                self.ask(1)

    def is_white(self, x, y):
        start = (y * self.width + x) * self.size
        return self.shown[start : start + self.size] == self.white

    def close(self, by_reset=False):
        if by_reset:
            self.stream.setsockopt(socket.SOL_SOCKET, socket.SO_LINGER, struct.pack("ii", 1, 0))
        self.stream.close()


class Painting:
    """Which places were asked to be painted, and which of these are known to be."""

    def __init__(self, port, by_threads):
        self.asked, self.known, self.all = set(), set(), []
        self.by_threads = by_threads
        self.viewer = Viewer(port)
        self.longest = 0

    def go_on(self, dice):
        if len(self.all) < PAINTED:
            self.all += [(dice.randrange(WIDTH), dice.randrange(HEIGHT)) for _ in range(5)]
        places = self.all[-5:] if len(self.all) < PAINTED else dice.sample(self.all, 5)
        self.asked |= set(places)
        for x, y in places:
            self.viewer.say(struct.pack(">BBHHBBHH", 5, 1, x, y, 5, 0, x, y))
        began = time.monotonic()
        self.viewer.ask(0, 0, 0, 1, 1)  # what is answered behind the pointers is drawn behind them
        self.viewer.update()
        self.longest = max(self.longest, time.monotonic() - began)
        while self.by_threads and not all(self.viewer.is_white(x, y) for x, y in places):
            self.viewer.picture()  # there the application draws when it comes to it
        self.known |= set(places)


def judge(viewer, known, asked):
    for x, y in known:
        if not viewer.is_white(x, y):
            raise Wrong(f"({x}, {y}) isn't white")
    rest = bytearray(viewer.shown)
    for x, y in asked:
        start = (y * WIDTH + x) * viewer.size
        rest[start : start + viewer.size] = bytes(viewer.size)
    if rest.count(0) != len(rest):
        raise Wrong("a place that wasn't painted isn't black")


def visit(soak, dice):
    """One visitor, from its coming to its going."""
    manner = dice.randrange(8)
    if manner == 0:  # says nothing, or nonsense
        with socket.create_connection(("127.0.0.1", soak.port), 30) as stream:
            stream.sendall(dice.choice((b"", b"GET / HTTP/1.1\r\n\r\n", b"RFB 003")))
            time.sleep(dice.random())
        return
    known = set(soak.painting.known)
    viewer = Viewer(soak.port, dice.randrange(3), dice.choice((32, 16, 8)), dice.choice((RAW, RRE, HEXTILE)))
    try:
        viewer.picture()
        judge(viewer, known, set(soak.painting.asked))
        soak.count += 1
        for _ in range(dice.randrange(6)):
            viewer.ask(1)
            viewer.update()
        if manner == 1:  # asks much, and never reads
            viewer.say(struct.pack(">BBHHHH", 3, 0, 0, 0, WIDTH, HEIGHT) * 50)
            time.sleep(dice.random())
        if manner == 2:  # goes in the middle of a message
            viewer.say(b"\x06\0\0\0\0\x01\0\0half")
    finally:
        viewer.close(by_reset=dice.randrange(2) == 1)


class Soak:
    def __init__(self, program, visitors, by_threads):
        words = [program, "serve", "--forever", "--port", "0", "--viewers", str(min(4 * visitors, 64 if by_threads else 1024))]
        words += ["--width", str(WIDTH), "--height", str(HEIGHT), *([] if by_threads else ["--one-thread"])]
        self.server = subprocess.Popen(words, stdin=subprocess.DEVNULL, stdout=subprocess.DEVNULL, stderr=subprocess.PIPE, text=True)
        said = re.search(r"is served on 127\.0\.0\.1:(\d+)", self.server.stderr.readline())
        if not said:
            sys.exit("soak.py: the program doesn't serve")
        self.port = int(said.group(1))
        self.painting = Painting(self.port, by_threads)
        self.count, self.wrong, self.is_over = 0, [], False

    def memory(self):
        with open(f"/proc/{self.server.pid}/statm", encoding="ascii") as it:
            return int(it.read().split()[1]) * os.sysconf("SC_PAGE_SIZE")

    def handles(self):
        return len(os.listdir(f"/proc/{self.server.pid}/fd"))

    def visits(self, dice):
        while not self.is_over:
            try:
                visit(self, dice)
            except Wrong as it:
                self.wrong.append(str(it))
            except Exception as it:  # (else its thread would end unseen)
                if not self.is_over:
                    self.wrong.append(repr(it))

    def paints(self, dice):
        while not self.is_over:
            try:
                self.painting.go_on(dice)
            except Exception as it:  # (else its thread would end unseen)
                if not self.is_over:
                    self.wrong.append(f"the painter: {it!r}")
                return
            time.sleep(0.02)


def main():
    words = argparse.ArgumentParser(description=__doc__)
    words.add_argument("program")
    words.add_argument("--minutes", type=float, default=20)
    words.add_argument("--visitors", type=int)
    words.add_argument("--seed", type=int, default=1)
    words.add_argument("--threads", action="store_true")
    asked = words.parse_args()
    visitors = asked.visitors or (15 if asked.threads else 40)
    soak = Soak(asked.program, visitors, asked.threads)
    threads = [threading.Thread(target=soak.visits, args=(random.Random(asked.seed * 1000 + k),), daemon=True) for k in range(visitors)]
    threads.append(threading.Thread(target=soak.paints, args=(random.Random(asked.seed),), daemon=True))
    for it in threads:
        it.start()
    began, first, at = time.monotonic(), None, 0
    print("| minute | pictures | memory, KB | handles | longest wait, ms |\n|---|---|---|---|---|", flush=True)
    while soak.server.poll() is None and time.monotonic() - began < 60 * asked.minutes:
        at += 1
        time.sleep(max(0, min(began + 60 * min(at, asked.minutes) - time.monotonic(), 60)))
        if soak.server.poll() is None:
            memory = soak.memory()
            first = first or memory
            print(f"| {at} | {soak.count} | {memory // 1024} | {soak.handles()} | {soak.painting.longest * 1000:.0f} |", flush=True)
            soak.painting.longest = 0
    soak.is_over = True
    if soak.server.poll() is not None:
        soak.wrong.append(f"the server ended with {soak.server.returncode}")
    elif memory > first + GROWTH:
        soak.wrong.append(f"its memory grew by {memory - first} bytes")
    soak.server.kill()
    for it in soak.wrong[:10]:
        print(f"WRONG: {it}")
    print(f"{soak.count} pictures, {len(soak.wrong)} wrong")
    return 1 if soak.wrong or not soak.count else 0


if __name__ == "__main__":
    sys.exit(main())
