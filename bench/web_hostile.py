#!/usr/bin/env python3
"""web_hostile.py PROGRAM [--rounds 3] [--seconds 1.6]: what browsers that mean no good leave to others, at `vncdemo serve --one-thread --web`.

One viewer over TCP asks for one whole update of 640 by 480 after another, alone, and then while browsers do their worst; a cell is the
median of the rounds. The status is 1 where less than 0.95 is left to it, and of what comes without end 0.80."""
import argparse
import multiprocessing
import os
import random
import selectors
import signal
import socket
import struct
import sys
import time

from browsers import KEY, RAW, Browser, Server, Viewer, changed, ends, frame, median, request

WIDTH, HEIGHT = 640, 480
WHOLE = struct.pack(">BBHHHH", 3, 0, 0, 0, WIDTH, HEIGHT)
FLOOD, OTHER = 0.80, 0.95
MOMENT, DRAINED = 0.4, 1.3


def opened(web, count):
    browsers = [Browser(web) for _ in range(count)]
    for browser in browsers:
        browser.open()
    return [browser.stream for browser in browsers]


def pour(streams, piece, reads=True):
    """Sends a piece to each stream over and over, as it takes it, and forgets what comes."""
    selector, left = selectors.DefaultSelector(), {}
    for stream in streams:
        stream.setblocking(False)
        left[stream] = piece
        selector.register(stream, selectors.EVENT_WRITE | (selectors.EVENT_READ if reads else 0))
    while True:
        for key, found in selector.select():
            stream = key.fileobj
            try:
                if found & selectors.EVENT_READ:
                    stream.recv(1 << 16)
                if found & selectors.EVENT_WRITE:
                    left[stream] = left[stream][stream.send(left[stream]):] or piece
            except BlockingIOError:
                pass


def pings(web):
    pour(opened(web, 8), frame(b"p" * 125, opcode=9) * 500)


def unread_pings(web):
    pour(opened(web, 8), frame(b"p" * 125, opcode=9) * 500, reads=False)


def bytes_in_frames(web):
    pointer = b"\x05" + bytes(5)
    pour(opened(web, 8), b"".join(frame(pointer[k : k + 1]) for k in range(6)) * 2000)


def empty_fragments(web):
    streams = opened(web, 8)
    for stream in streams:
        stream.sendall(frame(b"", final=False))
    pour(streams, frame(b"", opcode=0, final=False) * 10_000)


def wholes(web):
    pour(opened(web, 8), frame(RAW) + frame(WHOLE) * 5000, reads=False)


def comers(web, said):
    """Forty connections at once that say something, and go."""
    while True:
        streams = [socket.create_connection(("127.0.0.1", web)) for _ in range(40)]
        for stream in streams:
            try:
                stream.sendall(said())
            except OSError:
                pass
        for stream in streams:
            stream.close()


def nonsense(web):
    chance = random.Random(1)
    comers(web, lambda: chance.randbytes(100))


def refused(web):
    comers(web, lambda: request(web, "Origin: http://foreign.example"))


def broken(web):
    comers(web, lambda: request(web) + frame(b"x", opcode=3))


def mutated(web):
    """Requests and frames with bytes changed, one connection after the other, cut anywhere. Those that stay right ask for one place."""
    chance = random.Random(1)
    said = [request(web), *map(frame, (b"RFB 003.008\n", b"\x01", b"\x01", RAW, struct.pack(">BBHHHH", 3, 0, 0, 0, 1, 1)))]
    while True:
        ends(web, changed(b"".join(said), chance), chance)


def heads(web):
    """Forty requests whose heads have no end, a byte each 10 milliseconds."""
    streams = [socket.create_connection(("127.0.0.1", web)) for _ in range(40)]
    for stream in streams:
        stream.sendall(b"GET / HTTP/1.1\r\nSec-WebSocket-Key: " + KEY.encode() + b"\r\nX: ")
    while True:
        for stream in streams:
            try:
                stream.sendall(b"x")
            except OSError:
                pass
        time.sleep(0.01)


ATTACKS = [
    ("eight ping without end", pings, FLOOD),
    ("eight ping without end, and never read", unread_pings, FLOOD),
    ("eight move the pointer without end, a byte in each frame", bytes_in_frames, FLOOD),
    ("eight send empty fragments without end", empty_fragments, FLOOD),
    ("eight ask for all without end, and never read", wholes, FLOOD),
    ("forty at once of nonsense come and go without end", nonsense, FLOOD),
    ("forty at once of a foreign page come and go without end", refused, FLOOD),
    ("forty at once whose frames are wrong come and go without end", broken, FLOOD),
    ("one with bytes changed comes behind the other", mutated, OTHER),
    ("forty requests have no end", heads, OTHER),
]


def rate(viewer, seconds, room=bytearray(16 + 4 * WIDTH * HEIGHT)):
    """How many whole updates a viewer takes in a second, each asked for once the last one came."""
    count, began = 0, time.monotonic()
    while time.monotonic() - began < seconds:
        viewer.stream.sendall(WHOLE)
        if viewer.stream.recv_into(room, len(room), socket.MSG_WAITALL) < len(room):
            raise EOFError
        count += 1
    return count / (time.monotonic() - began)


def share(program, attack, seconds):
    """What is left of its rate while an attacker is there, who stands still every other moment, for the rate beside it."""
    server = Server(program, WIDTH, HEIGHT)
    viewer = Viewer(server.port)
    viewer.open()
    viewer.stream.settimeout(None)
    viewer.stream.sendall(RAW)
    rate(viewer, MOMENT)
    attacker = multiprocessing.Process(target=attack, args=(server.web,), daemon=True)
    attacker.start()
    apart(server.process.pid, 0, os.getpid(), 1, attacker.pid, 2)
    time.sleep(0.5)
    attacked, alone = [], []
    for _ in range(round(seconds / MOMENT)):
        attacked.append(rate(viewer, MOMENT))
        os.kill(attacker.pid, signal.SIGSTOP)
        time.sleep(DRAINED)  # up to 1,024 connections wait to be accepted
        alone.append(rate(viewer, MOMENT))
        os.kill(attacker.pid, signal.SIGCONT)
        time.sleep(MOMENT)
    fell = not attacker.is_alive()
    attacker.kill()
    attacker.join()
    viewer.stream.close()
    server.end()
    return sum(attacked) / sum(alone), sum(alone) / len(alone), fell


def apart(*pids):
    """Each on a processor of its own, where there are some."""
    if os.cpu_count() > 3:
        for pid, processor in zip(pids[::2], pids[1::2]):
            os.sched_setaffinity(pid, {processor})


def main():
    words = argparse.ArgumentParser(description=__doc__)
    words.add_argument("program")
    words.add_argument("--rounds", type=int, default=3)
    words.add_argument("--seconds", type=float, default=1.6)
    words.add_argument("--only", default="", help="a part of what browsers do")
    chosen, failed = words.parse_args(), False
    print("| what browsers do | goal | left | alone a second |\n|---|---|---|---|")
    for name, attack, goal in (it for it in ATTACKS if chosen.only in it[0]):
        found = [share(chosen.program, attack, chosen.seconds) for _ in range(chosen.rounds)]
        left, alone = (median([it[k] for it in found]) for k in (0, 1))
        fell = any(it[2] for it in found)
        failed |= left < goal or fell
        print(f"| {name} | {goal:.2f} | {left:.2f} | {alone:.0f} |{' an attacker fell' if fell else ''}", flush=True)
    return failed


if __name__ == "__main__":
    sys.exit(main())
