#!/usr/bin/env python3
"""sketch.py [PORT [SECONDS]]: a sketch pad, as sketch.c, by ctypes over the shared object. What viewers draw with the first button stays,
and the third one wipes all of it. It ends after so many seconds, where they are given. Of port 0 the system chooses one."""
import ctypes
import sys
import time

LIBRARY = ctypes.CDLL("libvnc_server.so.6")
WIDTH, HEIGHT, THICK = 640, 480, 3
POINTER = 2  # VNC_INPUT_POINTER


class Input(ctypes.Structure):  # vnc_input
    _fields_ = [("viewer", ctypes.c_uint64)] + [(name, ctypes.c_uint32) for name in ("kind", "down", "key", "buttons", "x", "y")]
    _fields_ += [("length", ctypes.c_uint64), ("shortened", ctypes.c_uint32)]


def declare(name, result, *kinds):
    call = getattr(LIBRARY, name)
    call.restype, call.argtypes = result, kinds
    return call


I32, U32, PTR = ctypes.c_int32, ctypes.c_uint32, ctypes.c_void_p
size = declare("vnc_server_size", ctypes.c_size_t)
init = declare("vnc_server_init", None, PTR)
listen = declare("vnc_server_listen_n", I32, PTR, ctypes.c_char_p, ctypes.c_size_t, ctypes.c_uint16, U32, U32, ctypes.c_char_p, ctypes.c_size_t, U32)
close = declare("vnc_server_close", I32, PTR)
port_of = declare("vnc_server_port", I32, PTR)
process_events = declare("vnc_server_process_events", I32, PTR, I32)
inputs = declare("vnc_server_next_inputs", ctypes.c_int64, PTR, PTR, ctypes.c_size_t)
paint = declare("vnc_server_paint", I32, PTR, I32, I32, I32, I32, PTR, ctypes.c_size_t)


def done(code):
    if code < 0:
        raise SystemExit(f"sketch.py: code {code}")
    return code


class Pad:
    def __init__(self, port):
        self.memory = ctypes.create_string_buffer(size() + 16)
        self.server = -(-ctypes.addressof(self.memory) // 16) * 16  # the first multiple of 16 in it
        self.pens = {}
        init(self.server)
        done(listen(self.server, b"127.0.0.1", 9, port, WIDTH, HEIGHT, b"sketch", 6, 64))
        self.fill(0, 0, WIDTH, HEIGHT, 0xFFFFFF)

    def fill(self, x, y, width, height, colour):
        colours = (U32 * (width * height))(*([colour] * (width * height)))
        done(paint(self.server, x, y, x + width, y + height, colours, width * height))

    def use(self, told):
        x, y = min(told.x, WIDTH - THICK), min(told.y, HEIGHT - THICK)
        if told.buttons & 4:
            self.fill(0, 0, WIDTH, HEIGHT, 0xFFFFFF)
        if told.buttons & 1:
            from_x, from_y = self.pens.get(told.viewer, (x, y))
            steps = max(abs(x - from_x), abs(y - from_y), 1)
            for k in range(steps + 1):
                self.fill(from_x + (x - from_x) * k // steps, from_y + (y - from_y) * k // steps, THICK, THICK, 0x202020)
            self.pens[told.viewer] = x, y
        else:
            self.pens.pop(told.viewer, None)

    def turn(self):
        room = (Input * 16)()
        done(process_events(self.server, 100))
        while (count := done(inputs(self.server, room, 16))) > 0:
            for told in room[:count]:
                if told.kind == POINTER:
                    self.use(told)


def main():
    pad = Pad(int(sys.argv[1]) if len(sys.argv) > 1 else 5900)
    end = time.monotonic() + float(sys.argv[2]) if len(sys.argv) > 2 else float("inf")
    print("port", port_of(pad.server), flush=True)
    while time.monotonic() < end:
        pad.turn()
    close(pad.server)


main()
