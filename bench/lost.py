#!/usr/bin/env python3
"""lost.py PROGRAM: `vncdemo serve`, by threads and in one thread, where viewers' machines are gone without a word. Each of three viewers
has its picture; then a filter on its socket drops whatever comes in, so that the server's questions find nobody. They have to be gone from
the server within three minutes, and another viewer has to be served before and after. The status is 1 where it isn't so."""
import ctypes
import os
import re
import socket
import struct
import subprocess
import sys
import time

from soak import HEIGHT, WIDTH, Viewer, Wrong

ATTACH_FILTER = 26  # SO_ATTACH_FILTER of Linux
DROP_ALL = ctypes.create_string_buffer(struct.pack("HBBI", 6, 0, 0, 0))  # one instruction of a packet filter: keep 0 bytes


def comes(port):
    """A viewer that had its picture."""
    viewer = Viewer(port)
    viewer.picture()
    return viewer


def lose(viewer):
    """Nothing that is sent to this viewer reaches it, nor is answered, from now on."""
    viewer.stream.setsockopt(socket.SOL_SOCKET, ATTACH_FILTER, struct.pack("HL", 1, ctypes.addressof(DROP_ALL)))


def sockets(process):
    handles = f"/proc/{process.pid}/fd"
    return sum("socket" in os.readlink(f"{handles}/{it}") for it in os.listdir(handles))


def try_way(program, way):
    words = [program, "serve", "--port", "0", "--viewers", "8", "--width", str(WIDTH), "--height", str(HEIGHT), *way]
    server = subprocess.Popen(words, stdin=subprocess.DEVNULL, stdout=subprocess.DEVNULL, stderr=subprocess.PIPE, text=True)
    try:
        said = re.search(r"is served on 127\.0\.0\.1:(\d+)", server.stderr.readline())
        if not said:
            raise Wrong("nothing is served")
        port = int(said.group(1))
        listening = sockets(server)
        viewers = [comes(port) for _ in range(3)]
        for viewer in viewers:
            lose(viewer)
        began = time.monotonic()
        comes(port).close()
        while sockets(server) > listening:
            if time.monotonic() - began > 180:
                raise Wrong(f"{sockets(server) - listening} lost viewers are there still")
            time.sleep(1)
        seconds = time.monotonic() - began
        comes(port).close()
        return f"three lost viewers were gone after {seconds:.0f} seconds"
    finally:
        server.kill()
        server.wait()


def main(program):
    failed = 0
    for way in ([], ["--one-thread", "--forever"]):
        try:
            print(f"serve {' '.join(way)}: {try_way(program, way)}", flush=True)
        except (Wrong, OSError) as error:
            print(f"serve {' '.join(way)}: FAILED, {error}", flush=True)
            failed = 1
    return failed


if __name__ == "__main__":
    if len(sys.argv) != 2:
        sys.exit(__doc__)
    sys.exit(main(sys.argv[1]))
