#!/usr/bin/env python3
"""paint.py PORT WIDTH HEIGHT - draws a cross of strokes on a server's screen by pointer events, and prints how many places show it."""
import socket
import struct
import sys
import time

port, width, height = map(int, sys.argv[1:4])
server = socket.create_connection(("127.0.0.1", port), 5)


def read(n):
    have = b""
    while len(have) < n:
        more = server.recv(n - len(have))
        if not more:
            raise SystemExit("the server closed")
        have += more
    return have


read(12)
server.sendall(b"RFB 003.008\n")
read(read(1)[0])
server.sendall(b"\x01")
read(4)
server.sendall(b"\x01")
wide, high = struct.unpack(">HH", read(4))
read(16)
read(struct.unpack(">I", read(4))[0])
for i in range(min(width, height)):
    for x, y in ((i, i), (min(width, height) - 1 - i, i), (i, 50), (60, i)):
        server.sendall(struct.pack(">BBHH", 5, 1, x, y))
server.sendall(struct.pack(">BBHH", 5, 0, 0, 0))
time.sleep(0.5)
server.sendall(struct.pack(">BBHHHH", 3, 0, 0, 0, wide, high))
lit = 0
for _ in range(struct.unpack(">xxH", read(4))[0]):
    x, y, w, h, encoding = struct.unpack(">HHHHi", read(12))
    pixels = read(w * h * 4)
    lit += sum(1 for at in range(0, len(pixels), 4) if pixels[at])
print(lit)
