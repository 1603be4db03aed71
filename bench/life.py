#!/usr/bin/env python3
"""life.py PROGRAM [--connections 200000] [--at-once 8] [--first-at-once 24] [--threads] [--arenas N]: a long life of `vncdemo serve
--forever`, by one thread, or with --threads by two a viewer. So many viewers come and go, some at once, and the first thousand more at once,
as a server takes what the most viewers took that were there together. Each opens, asks for the whole screen, takes it, holds a key down and
leaves, every eighth by a reset and every ninth in its opening. It prints what memory the server takes after a thousand of them, after each
tenth of all, and at the end. The status is 1 where the server ended, a picture had another length, or it took a tenth of a MB more at the end
than after the first thousand. With --threads the C library is told to keep all memory in N arenas (MALLOC_ARENA_MAX), one unless another number
is given; with --arenas 0 it has its own way, up to eight a processor."""
import argparse
import os
import re
import socket
import struct
import subprocess
import sys
import threading

WIDTH, HEIGHT = 64, 48
UPDATE = 4 + 12 + WIDTH * HEIGHT * 4
GROWTH_KB = 100


def take(stream, count):
    held = b""
    while len(held) < count:
        piece = stream.recv(count - len(held))
        if not piece:
            raise OSError("closed")
        held += piece
    return held


def visit(port, number):
    """RFC 6143, 7.1, 7.3 and 7.5: a viewer comes, sees the screen and goes."""
    with socket.create_connection(("127.0.0.1", port), 30) as stream:
        take(stream, 12)
        if number % 9 == 0:
            return
        stream.sendall(b"RFB 003.008\n\x01\x01")
        take(stream, 2 + 4 + 24 + 4)
        stream.sendall(struct.pack(">BBHHHH", 3, 0, 0, 0, WIDTH, HEIGHT) + b"\x04\x01\0\0\0\0\xff\xe1")
        # the key rings: a bell may stand before the update
        if take(stream, 1) == b"\x02":
            take(stream, 1)
        take(stream, UPDATE - 1)
        if number % 8 == 0:
            stream.setsockopt(socket.SOL_SOCKET, socket.SO_LINGER, struct.pack("ii", 1, 0))


def memory_kb(pid):
    # (counted anew: VmRSS lags behind by a hundred KB and more)
    with open(f"/proc/{pid}/smaps_rollup", encoding="ascii") as it:
        return int(re.search(r"^Rss:\s+(\d+) kB", it.read(), re.M)[1])


def some(port, numbers, failed):
    for number in numbers:
        try:
            visit(port, number)
        except OSError as why:
            failed.append(f"{number}: {why}")


def all_of(port, first, last, at_once, failed):
    threads = [threading.Thread(target=some, args=(port, range(first + it, last, at_once), failed)) for it in range(at_once)]
    for thread in threads:
        thread.start()
    for thread in threads:
        thread.join()


def main():
    p = argparse.ArgumentParser(description=__doc__, formatter_class=argparse.RawDescriptionHelpFormatter)
    p.add_argument("program")
    p.add_argument("--connections", type=int, default=200_000)
    p.add_argument("--at-once", type=int, default=8)
    p.add_argument("--first-at-once", type=int, default=24)
    p.add_argument("--threads", action="store_true")
    p.add_argument("--arenas", type=int, default=1)
    opts = p.parse_args()
    words = ["serve", "--forever", "--port", "0", "--width", str(WIDTH), "--height", str(HEIGHT), "--viewers", "64"]
    way = [] if opts.threads else ["--one-thread"]
    around = {**os.environ, "MALLOC_ARENA_MAX": str(opts.arenas)} if opts.threads and opts.arenas else None
    server = subprocess.Popen([opts.program, *words, *way], env=around, stdout=subprocess.DEVNULL, stderr=subprocess.PIPE, text=True)
    port = int(re.search(r":(\d+)$", server.stderr.readline().strip())[1])
    failed, first, done = [], None, 0
    for goal in sorted({1000, *(opts.connections * tenth // 10 for tenth in range(1, 11))}):
        all_of(port, done, goal, opts.at_once if done else opts.first_at_once, failed)
        done = goal
        if server.poll() is not None:
            print(f"after {done} the server had ended: {server.returncode}")
            return 1
        taken = memory_kb(server.pid)
        first = taken if first is None else first
        print(f"{done} connections: {taken} KB, {len(failed)} failed", flush=True)
    server.kill()
    print("\n".join(failed[:5]))
    return 1 if failed or taken > first + GROWTH_KB else 0


if __name__ == "__main__":
    sys.exit(main())
