#!/usr/bin/env python3
"""Looks at a server once, as a viewer of version 3.8 by RFC 6143: look.py PORT

It asks for the whole picture in Raw, presses and lets go the first button at (1, 1), and goes. It prints the picture's size, how many
colours it has, and the desktop's name; the status is not 0 where the server says anything else than it should."""
import socket
import struct
import sys


def read(viewer, count):
    got = b""
    while len(got) < count:
        piece = viewer.recv(count - len(got))
        if not piece:
            raise SystemExit(f"look.py: the server is gone, {count - len(got)} bytes too early")
        got += piece
    return got


def want(got, wanted, what):
    if got != wanted:
        raise SystemExit(f"look.py: {what}: {got!r}")


def picture(viewer, width, height):
    """The places' bytes, by one update or several, each of rectangles in Raw (7.6.1, 7.7.1)."""
    places = [None] * (width * height)
    viewer.sendall(struct.pack(">BBHHHH", 3, 0, 0, 0, width, height))
    while None in places:
        kind, _, count = struct.unpack(">BBH", read(viewer, 4))
        want(kind, 0, "a message that is no update")
        for _ in range(count):
            x, y, columns, rows, encoding = struct.unpack(">HHHHi", read(viewer, 12))
            want(encoding, 0, "an encoding that was not asked for")
            for row in range(rows):
                line = read(viewer, 4 * columns)
                for column in range(columns):
                    places[(y + row) * width + x + column] = line[4 * column : 4 * column + 4]
        if None in places:
            viewer.sendall(struct.pack(">BBHHHH", 3, 1, 0, 0, width, height))
    return places


def main():
    with socket.create_connection(("127.0.0.1", int(sys.argv[1])), 10) as viewer:
        want(read(viewer, 12), b"RFB 003.008\n", "version")  # 7.1.1
        viewer.sendall(b"RFB 003.008\n")
        want(read(viewer, 2), b"\x01\x01", "security types")  # 7.1.2
        viewer.sendall(b"\x01")
        want(read(viewer, 4), b"\0\0\0\0", "security result")  # 7.1.3
        viewer.sendall(b"\x01")
        width, height = struct.unpack(">HH", read(viewer, 4))  # 7.3.2
        read(viewer, 16)
        name = read(viewer, struct.unpack(">I", read(viewer, 4))[0]).decode()
        viewer.sendall(struct.pack(">BxHi", 2, 1, 0))  # 7.5.2
        places = picture(viewer, width, height)
        viewer.sendall(struct.pack(">BBHH", 5, 1, 1, 1) + struct.pack(">BBHH", 5, 0, 1, 1))  # 7.5.5
        print(f"{width} by {height}, {len(set(places))} colours, {name}")


main()
