"""rfb_viewer.py: what rfb_examples.py and rfb_programs.py have in common: how a program is compiled over rfb_compat.h and over
LibVNCServer, a viewer that looks at it, and how many inputs it counted."""
import functools
import glob
import os
import re
import socket
import struct
import subprocess
import sys
import time

HERE = os.path.dirname(os.path.dirname(os.path.abspath(__file__)))


def compiles(*arguments):
    return subprocess.run([os.environ.get("CC", "cc"), "-g", "-O1", *arguments], check=False).returncode == 0


def changed(source, copy):
    """A copy of a source, over rfb_compat.h."""
    with open(source, encoding="latin-1") as it, open(copy, "w", encoding="latin-1") as out:
        out.write(it.read().replace("#include <rfb/rfb.h>", '#include "rfb_compat.h"'))


@functools.cache
def layer(prefix, room):
    """What a program over rfb_compat.h is compiled with, where vnc_server is installed below a prefix: that is compiled in a room first."""
    sources = sorted(glob.glob(f"{HERE}/rfb_compat*.c"))
    objects = [f"{room}/{os.path.basename(path)[:-2]}.o" for path in sources]
    for path, source in zip(objects, sources):
        if not compiles(f"-I{prefix}/include", "-c", "-o", path, source):
            raise SystemExit("the layer does not compile")
    return [f"-I{HERE}", *objects, f"{prefix}/lib/libvnc_server.a", "-lpthread"]


def flags_of_real():
    """What a program is compiled with over LibVNCServer; nothing where it isn't installed."""
    real = subprocess.run(["pkg-config", "--cflags", "--libs", "libvncserver"], check=False, capture_output=True, text=True)
    return real.stdout.split() if real.returncode == 0 else []


class Viewer:
    """A viewer of version 3.8, with Raw and CopyRect, that draws the cursor itself (RFC 6143)."""

    def __init__(self, port):
        for _ in range(600):
            try:
                self.socket = socket.create_connection(("127.0.0.1", port), 20)
                break
            except OSError:
                time.sleep(0.05)
        else:
            raise OSError("nobody is served")
        self.read(12)
        self.socket.sendall(b"RFB 003.008\n")
        self.read(self.read(1)[0])
        self.socket.sendall(b"\1")
        self.read(4)
        self.socket.sendall(b"\1")
        self.width, self.height = struct.unpack(">HH", self.read(4))
        self.read(16)
        self.name = self.read(struct.unpack(">I", self.read(4))[0]).decode()
        self.places = bytearray(self.width * self.height * 4)
        self.updates = self.copies = self.sent = 0
        self.socket.sendall(struct.pack(">B3xBBBBHHHBBB3x", 0, 32, 24, 0, 1, 255, 255, 255, 16, 8, 0) + struct.pack(">BxH4i", 2, 4, 1, 0, -239, -223))
        self.ask(0)

    def read(self, count):
        got = b""
        while len(got) < count:
            piece = self.socket.recv(count - len(got))
            if not piece:
                raise EOFError
            got += piece
        return got

    def ask(self, incremental):
        self.socket.sendall(struct.pack(">BBHHHH", 3, incremental, 0, 0, self.width, self.height))

    def tell(self, *inputs):
        """Inputs, in one piece: (key, down) or (buttons, x, y)."""
        self.socket.sendall(b"".join(struct.pack(">BBHI", 4, it[1], 0, it[0]) if len(it) == 2 else struct.pack(">BBHH", 5, *it) for it in inputs))
        self.sent += len(inputs)

    def key(self, *keys):
        for key in keys:
            self.tell((key, 1), (key, 0))
            self.watch(0.3)

    def point(self, buttons, x, y):
        self.tell((buttons, x, y))

    def watch(self, seconds):
        """Takes what comes for so long. Whether the connection stays."""
        end = time.time() + seconds
        try:
            while (left := end - time.time()) > 0:
                self.socket.settimeout(left)
                try:
                    kind = self.read(1)[0]
                except socket.timeout:
                    return True
                self.socket.settimeout(20)
                if kind == 0:
                    self.update()
                elif kind == 3:
                    self.read(3)
                    self.read(struct.unpack(">I", self.read(4))[0])
            return True
        except (EOFError, ConnectionError):
            return False

    def update(self):
        self.updates += 1
        for _ in range(struct.unpack(">xH", self.read(3))[0]):
            x, y, columns, rows, encoding = struct.unpack(">HHHHi", self.read(12))
            if encoding == -223:
                self.width, self.height, self.places = columns, rows, bytearray(columns * rows * 4)
                continue
            if encoding == -239:
                self.read(columns * rows * 4 + (columns + 7) // 8 * rows)
                continue
            pitch = 4 * self.width
            if encoding == 1:
                self.copies += 1
                from_x, from_y = struct.unpack(">HH", self.read(4))
                taken = b"".join(self.places[(from_y + row) * pitch + 4 * from_x :][: 4 * columns] for row in range(rows))
            else:
                taken = self.read(columns * rows * 4)
            for row in range(rows):
                at = (y + row) * pitch + 4 * x
                self.places[at : at + 4 * columns] = taken[row * 4 * columns : (row + 1) * 4 * columns]
        self.ask(1)


def free_port():
    with socket.socket() as it:
        it.bind(("127.0.0.1", 0))
        return it.getsockname()[1]


def counted(log):
    """How many inputs a program's hooks were told, by what rfb_count.h wrote."""
    with open(log, encoding="utf-8", errors="replace") as it:
        return int((re.findall(r"^inputs (\d+)$", it.read(), re.M) or ["0"])[-1])


def await_told(viewer, told):
    """Until a program has counted what a viewer sent, or some seconds are over."""
    for _ in range(100):
        if told() >= viewer.sent or not viewer.watch(0.1):
            return


def differing(ours, real):
    """How many places of two viewers' pictures differ."""
    return sum(ours.places[k : k + 3] != real.places[k : k + 3] for k in range(0, len(ours.places), 4))


def says_what_is_wrong(check):
    """Makes a check. Where something isn't as it should be, prints what, and ends with 1."""
    try:
        check()
    except (OSError, EOFError, subprocess.TimeoutExpired) as error:
        print(f"WRONG: {error or 'the server closed the connection'}")
        sys.exit(1)
