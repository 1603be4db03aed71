#!/usr/bin/env python3
"""browsers.py PROGRAM [--streams 1000] [--seed 1] [--cost]: browsers at `vncdemo serve --one-thread --web` (RFC 6455).

A browser is sent what a viewer over TCP is sent; pings, closes and wrong frames are answered by their codes, wrong requests by their statuses,
and how a browser ended is printed; silent ones hold nobody up, and so many streams with bytes changed, put in or left out, cut anywhere, each come to an end, with viewers served
behind them. With --cost it prints instead what processor time the server takes for a whole update of 1920 by 1080 in Raw, and for a dot to
eight viewers, over TCP and over WebSockets in turns, and with websockify in front where that is installed. The status is 1 where something is not as it should be."""
import argparse
import glob
import os
import random
import shutil
import socket
import struct
import subprocess
import sys
import time

KEY = "dGhlIHNhbXBsZSBub25jZQ=="  # of RFC 6455, section 1.3, with its answer
ACCEPTED = b"Sec-WebSocket-Accept: s3pPLMBiTxaQ9kYGzzhZRbK+xOo=\r\n"
PATIENCE = 12  # a request may take ten seconds
SOON = 5
RAW = struct.pack(">BxHi", 2, 1, 0)


def spent(pid):
    """What a process spent of the processor's time, in seconds."""
    return sum(int(open(it).read().split()[0]) for it in glob.glob(f"/proc/{pid}/task/*/schedstat")) / 1e9


class Server:
    def __init__(self, program, width, height):
        words = [program, "serve", "--one-thread", "--forever", "--end-with-input", "--port", "0", "--web", "0", "--viewers", "100"]
        words += ["--width", str(width), "--height", str(height), "--host", "desk.example:5800", "--origin", "http://desk.example"]
        self.process = subprocess.Popen(words, stdin=subprocess.PIPE, stdout=subprocess.DEVNULL, stderr=subprocess.PIPE, text=True)
        line = self.process.stderr.readline()
        self.port, self.web = (int(it.split(":")[1].strip(",")) for it in line.split() if it.startswith("127.0.0.1:"))

    def seconds(self):
        return spent(self.process.pid)

    def end(self):
        self.process.stdin.close()
        return self.process.wait(10)


class Viewer:
    """A viewer over TCP."""

    # how many bytes stand before a short update
    HEAD = 0

    def __init__(self, port):
        self.stream = socket.create_connection(("127.0.0.1", port))
        self.stream.settimeout(10)
        self.stream.setsockopt(socket.IPPROTO_TCP, socket.TCP_NODELAY, 1)
        self.held = bytearray()

    def more(self):
        piece = self.stream.recv(1 << 20)
        if not piece:
            raise EOFError
        return piece

    def fill(self):
        self.held += self.more()

    def take(self, count):
        while len(self.held) < count:
            self.fill()
        taken = bytes(self.held[:count])
        del self.held[:count]
        return taken

    def spelled(self, data):
        return data

    def send(self, data):
        self.stream.sendall(self.spelled(data))

    def open(self):
        """RFC 6143, 7.1 to 7.3."""
        said = self.take(12)
        self.send(b"RFB 003.008\n")
        said += self.take(2)
        self.send(b"\x01")
        said += self.take(4)
        self.send(b"\x01")
        said += self.take(24)
        return said + self.take(struct.unpack(">I", said[-4:])[0])

    def ask(self, incremental, width, height):
        self.send(struct.pack(">BBHHHH", 3, incremental, 0, 0, width, height))

    def session(self, width, height):
        said = self.open()
        self.send(RAW)
        self.ask(0, width, height)
        return said + self.take(4 + 12 + width * height * 4)


def frame(data, opcode=2, final=True, masked=True):
    """A client's frame: RFC 6455, 5.2."""
    bit, size = 128 if masked else 0, len(data)
    head = bytes([opcode | (128 if final else 0)])
    if size < 126:
        head += bytes([bit | size])
    elif size < 65536:
        head += struct.pack(">BH", bit | 126, size)
    else:
        head += struct.pack(">BQ", bit | 127, size)
    if not masked:
        return head + data
    key = os.urandom(4)
    return head + key + bytes(byte ^ key[i % 4] for i, byte in enumerate(data))


def request(port, *lines, host=None, method="GET", version="1.1"):
    wanted = [f"{method} /websockify HTTP/{version}", f"Host: {host or f'127.0.0.1:{port}'}", "Upgrade: websocket", "Connection: keep-alive, Upgrade"]
    wanted += [f"Sec-WebSocket-Key: {KEY}", "Sec-WebSocket-Version: 13", "Sec-WebSocket-Protocol: binary", *lines]
    return ("\r\n".join(wanted) + "\r\n\r\n").encode()


class Browser(Viewer):
    """The same over a WebSocket."""

    HEAD = 2

    def __init__(self, port, behind=b""):
        super().__init__(port)
        self.raw, self.own = bytearray(), []
        self.stream.sendall(request(port) + behind)
        while b"\r\n\r\n" not in self.raw:
            self.raw += self.more()
        head, _, rest = self.raw.partition(b"\r\n\r\n")
        self.head, self.raw = bytes(head) + b"\r\n", bytearray(rest)

    def bytes(self, count):
        while len(self.raw) < count:
            self.raw += self.more()
        taken = bytes(self.raw[:count])
        del self.raw[:count]
        return taken

    def fill(self):
        """One frame of the server's, which has no mask."""
        first, size = self.bytes(2)
        if size > 125:
            size = int.from_bytes(self.bytes(2 if size == 126 else 8), "big")
        data = self.bytes(size)
        if first & 15 < 8:
            self.held += data
        else:
            self.own.append((first & 15, data))

    def spelled(self, data):
        return frame(data)

    def answer(self, data):
        """The first control frame that answers such bytes."""
        self.stream.sendall(data)
        while not self.own:
            self.fill()
        return self.own.pop(0)


WRONG = [
    ("a text", frame(b"x", opcode=1), 1003),
    ("no mask", frame(b"x", masked=False), 1002),
    ("a reserved bit", b"\xf2\x80\0\0\0\0", 1002),
    ("an opcode that is none", frame(b"", opcode=3), 1002),
    ("a fragment of a ping", frame(b"x", opcode=9, final=False), 1002),
    ("a ping of 126 bytes", frame(b"x" * 126, opcode=9), 1002),
    ("a fragment of nothing", frame(b"x", opcode=0), 1002),
    ("a message within another", frame(b"x", final=False) + frame(b"x"), 1002),
    ("a close of one byte", frame(b"\x03", opcode=8), 1002),
    ("a close by 1005", frame(struct.pack(">H", 1005), opcode=8), 1002),
    ("a reason that is no text", frame(b"\x03\xe8\xff", opcode=8), 1007),
    ("a length that isn't the shortest", b"\x82\xfe\0\x05abcd12345", 1002),
    ("a length of 2^63", b"\x82\xff\x80" + bytes(7) + b"abcd", 1002),
]


ASKS = RAW + struct.pack(">BBHHHH", 3, 0, 0, 0, 64, 48)  # 18 bytes
STILL = b"\x05" + bytes(5)  # a pointer without a button
# RFC 6455, 5.2 to 5.5: the same bytes in other frames, with the control frames that answer these
RIGHT = [
    ("a mask of zero", b"\x82\x92" + bytes(4) + ASKS, []),
    ("frames of a byte, and empty ones", b"".join(frame(ASKS[k : k + 1]) + frame(b"") for k in range(len(ASKS))), []),
    ("fragments and a ping between", frame(ASKS[:3], final=False) + frame(b"a", opcode=9) + frame(b"", 0, False) + frame(ASKS[3:], 0), [(10, b"a")]),
    ("a frame of 126 bytes", frame(STILL * 18 + ASKS), []),
    ("a frame of 65,538 bytes", frame(STILL * 10_920 + ASKS), []),
    ("a ping of 125 bytes", frame(b"p" * 125, opcode=9) + frame(ASKS), [(10, b"p" * 125)]),
    ("a pong that nobody asked for", frame(b"x", opcode=10) + frame(ASKS), []),
]
CLOSES = [(b"", b""), (b"\x03\xe8bye", b"\x03\xe8"), (b"\x0b\xb8", b"\x0b\xb8"), (b"\x13\x87" + "z\u00e4".encode(), b"\x13\x87")]


def is_served(web, data, answers, wanted):
    """Whether a browser that says these bytes is sent the screen, and these control frames."""
    browser = Browser(web)
    browser.open()
    browser.stream.sendall(data)
    shown = browser.take(len(wanted))
    while len(browser.own) < len(answers):
        browser.fill()
    return shown == wanted and browser.own == answers


def refused(web):
    return [
        ("a foreign page", request(web, "Origin: http://foreign.example"), 403),
        ("the server's own page", request(web, f"Origin: http://127.0.0.1:{web}"), 101),
        ("a page that is let in", request(web, "Origin: http://desk.example"), 101),
        ("a host that is let in", request(web, host="desk.example:5800"), 101),
        ("that host at another port", request(web, host="desk.example:5801"), 403),
        ("a foreign host", request(web, host="foreign.example"), 403),
        ("another method", request(web, method="POST"), 405),
        ("no WebSocket", b"GET / HTTP/1.1\r\nHost: localhost\r\n\r\n", 426),
        ("HTTP/1.0", request(web, version="1.0"), 505),
        ("no HTTP", b"RFB 003.008\n\r\n\r\n", 400),
        ("two hosts", request(web, "Host: localhost"), 400),
        ("no end", b"GET / HTTP/1.1\r\nHost: localhost\r\nX: " + b"a" * 9000, 431),
    ]


TEXTS = {403: b"This host or this origin is not let in.\n", 426: b"Only WebSockets are served.\n"}


def has_status(web, data, status):
    """Whether a request is answered by a status and, where one is known, by its text."""
    with socket.create_connection(("127.0.0.1", web)) as stream:
        stream.settimeout(PATIENCE)
        stream.sendall(data)
        answer = stream.recv(4096)
        return int(answer.split(b" ")[1]) == status and answer.endswith(TEXTS.get(status, b""))


def of_one(program, *words):
    """A server of one viewer at once, and its port for browsers."""
    words = [program, "serve", "--one-thread", *words, "--port", "0", "--web", "0", "--viewers", "1"]
    process = subprocess.Popen(words, stdin=subprocess.PIPE, stdout=subprocess.PIPE, stderr=subprocess.PIPE, text=True)
    return process, int(process.stderr.readline().rpartition("127.0.0.1:")[2].split()[0].strip(","))


def ending(program, data):
    """What is printed of a browser that says these bytes once its version was answered."""
    process, web = of_one(program)
    with process:
        browser = Browser(web)
        browser.send(b"RFB 003.008\n")
        browser.take(14)
        browser.answer(data)
        browser.stream.close()
        return process.communicate(timeout=PATIENCE)[0]


def ending_at_once(program, last):
    """The same of one that says a right message and a frame in one piece, with what it was sent behind the former."""
    process, web = of_one(program)
    with process:
        browser = Browser(web)
        browser.send(b"RFB 003.008\n")
        browser.take(14)
        close = browser.answer(frame(b"\x01") + last)
        browser.stream.close()
        return bytes(browser.held), close, process.communicate(timeout=PATIENCE)[0]


def told(program):
    """The frames that a browser is sent that is one too many, and its close."""
    process, web = of_one(program, "--forever", "--end-with-input")
    with process:
        one = Browser(web)
        one.open()
        other, frames = Browser(web), []
        while not other.own:
            other.fill()
            frames.append(bytes(other.held))
            other.held.clear()
        process.communicate(timeout=PATIENCE)
        return frames[:-1], other.own


def changed(data, chance):
    data = bytearray(data)
    for _ in range(chance.randint(1, 4)):
        at, how = chance.randrange(len(data) + 1), chance.random()
        if how < 0.5:
            data[at : at + 1] = [chance.randrange(256)]
        elif how < 0.7:
            data[at:at] = chance.randbytes(chance.randint(1, 5))
        elif how < 0.9:
            del data[at : at + chance.randint(1, 9)]
        else:
            del data[at:]
    return bytes(data)


def ends(web, data, chance):
    """Whether a connection that says these bytes, cut anywhere, and no more comes to its end, and long before its time is up."""
    with socket.create_connection(("127.0.0.1", web)) as stream:
        stream.settimeout(SOON)
        try:
            while data:
                count = chance.randint(1, 300)
                stream.sendall(data[:count])
                data = data[count:]
            stream.shutdown(socket.SHUT_WR)
            while stream.recv(1 << 16):
                pass
        except socket.timeout:  # (TimeoutError is another before Python 3.10)
            return False
        except OSError:
            pass
        return True


def check(program, streams, seed):
    server, wrong = Server(program, 64, 48), []
    wanted = Viewer(server.port).session(64, 48)
    browser = Browser(server.web)
    if ACCEPTED not in browser.head or b"Protocol: binary\r\n" not in browser.head:
        wrong.append(f"the answer {browser.head}")
    if browser.session(64, 48) != wanted:
        wrong.append("a browser is sent other bytes")
    if browser.answer(frame(b"ping", opcode=9)) != (10, b"ping"):
        wrong.append("a ping's answer")
    update = wanted[-16 - 64 * 48 * 4 :]
    wrong += [name for name, data, answers in RIGHT if not is_served(server.web, data, answers, update)]
    wrong += [f"the answer to a close {said}" for said, answer in CLOSES if Browser(server.web).answer(frame(said, opcode=8)) != (8, answer)]
    wrong += [name for name, data, code in WRONG if Browser(server.web).answer(data) != (8, struct.pack(">H", code))]
    wrong += [name for name, data, status in refused(server.web) if not has_status(server.web, data, status)]
    cut = Browser(server.web)
    cut.take(12)
    cut.stream.sendall(frame(b"RFB ", final=False) + frame(b"", opcode=9) + frame(b"003.0", opcode=0, final=False) + frame(b"08\n", opcode=0))
    if cut.take(2) != b"\x01\x01" or cut.own != [(10, b"")]:
        wrong.append("a message in fragments")
    hurried = Browser(server.web, frame(b"RFB 003.008\n"))
    if hurried.take(14) != b"RFB 003.008\n\x01\x01":
        wrong.append("a frame right behind a request")
    if ending(program, frame(b"x", opcode=1)) != "viewer 1 Frames\n":
        wrong.append("the end of one whose frames are wrong")
    if ending_at_once(program, frame(b"x", opcode=1)) != (bytes(4), (8, b"\x03\xeb"), "viewer 1 Frames\n"):
        wrong.append("the end of one with a right message and a wrong frame in one piece")
    if ending_at_once(program, frame(b"", opcode=8)) != (bytes(4), (8, b""), "viewer 1 EndOfInput\n"):
        wrong.append("the end of one with a message and a close in one piece")
    why = b"too many viewers"
    # noVNC reads one message of an opening in each frame
    if told(program) != ([b"RFB 003.003\n", struct.pack(">II", 0, len(why)) + why], [(8, b"\x03\xe8")]):
        wrong.append("what is told to one too many")
    silent = [socket.create_connection(("127.0.0.1", server.web)) for _ in range(200)]
    began = time.monotonic()
    if Browser(server.web).session(64, 48) != wanted or time.monotonic() - began > 2:
        wrong.append("silent ones hold others up")
    chance = random.Random(seed)
    said = [request(server.web), *map(frame, (b"RFB 003.008\n", b"\x01", b"\x01", RAW, struct.pack(">BBHHHH", 3, 0, 0, 0, 64, 48)))]
    said = b"".join(said) + frame(b"ping", opcode=9)
    endless = sum(not ends(server.web, changed(said, chance), chance) for _ in range(streams))
    if endless:
        wrong.append(f"{endless} streams have no end")
    if not Viewer(server.port).session(64, 48) == Browser(server.web).session(64, 48) == wanted:
        wrong.append("who comes behind them is sent other bytes")
    for stream in silent:
        stream.close()
    if server.end():
        wrong.append("the status")
    print("\n".join(f"WRONG: {it}" for it in wrong) or "all as it should be", f"\n{len(RIGHT)} right forms, {len(WRONG)} wrong frames, {len(refused(1))} requests, {streams} changed streams")
    return bool(wrong)


def whole(server, viewer, times):
    viewer.open()
    viewer.send(RAW)
    began = server.seconds()
    for _ in range(times):
        viewer.ask(0, 1920, 1080)
        viewer.take(4 + 12 + 1920 * 1080 * 4)
    return (server.seconds() - began) / times


def dots(server, viewers, times):
    """All viewers take as long to take a dot and to ask for the next, so that the server is woken as often."""
    painter = Viewer(server.port)
    painter.open()
    for viewer in viewers:
        viewer.open()
        viewer.send(RAW)
        viewer.ask(0, 64, 48)
        viewer.take(4 + 12 + 64 * 48 * 4)
        viewer.ask(1, 64, 48)
    asks = [(viewer.stream, viewer.HEAD + 4 + 12 + 4, viewer.spelled(struct.pack(">BBHHHH", 3, 1, 0, 0, 64, 48))) for viewer in viewers]
    for stream, _, _ in asks:
        stream.settimeout(None)
    began = server.seconds()
    for number in range(times):
        painter.send(struct.pack(">BBHH", 5, 1, number % 64, number // 64 % 48) + struct.pack(">BBHH", 5, 0, 0, 0))
        for stream, size, ask in asks:
            if len(stream.recv(size, socket.MSG_WAITALL)) < size:
                raise EOFError
            stream.sendall(ask)
    return (server.seconds() - began) / times


def median(values):
    return sorted(values)[len(values) // 2]


class Helped(Server):
    """A server with websockify in front, where that is installed. Its time is counted with the server's."""

    def __init__(self, program, width, height):
        super().__init__(program, width, height)
        with socket.create_server(("127.0.0.1", 0)) as free:
            self.web = free.getsockname()[1]
        words = ["websockify", f"127.0.0.1:{self.web}", f"127.0.0.1:{self.port}"]
        self.helper = subprocess.Popen(words, stdout=subprocess.DEVNULL, stderr=subprocess.DEVNULL)
        while True:
            try:
                return socket.create_connection(("127.0.0.1", self.web)).close()
            except ConnectionRefusedError:
                time.sleep(0.1)

    def seconds(self):
        """With those of the processes that it made, one for each connection."""
        children = open(f"/proc/{self.helper.pid}/task/{self.helper.pid}/children").read().split()
        return super().seconds() + sum(spent(pid) for pid in (self.helper.pid, *children))

    def end(self):
        self.helper.terminate()
        self.helper.wait(10)
        return super().end()


def cost(program):
    """All ways in turns, each on a server of its own."""
    ways = [("TCP", Server, Viewer), ("WebSockets", Server, Browser)]
    if shutil.which("websockify"):
        ways.append(("websockify", Helped, Browser))
    taken = {}
    for _ in range(5):
        for name, kind, viewer in ways:
            server = kind(program, 1920, 1080)
            port = server.port if viewer is Viewer else server.web
            taken.setdefault(("a whole update", name), []).append(whole(server, viewer(port), 300) * 1000)
            server.end()
            server = kind(program, 64, 48)
            port = server.port if viewer is Viewer else server.web
            taken.setdefault(("a dot to eight", name), []).append(dots(server, [viewer(port) for _ in range(8)], 12000) * 1000)
            server.end()
    for row in ("a whole update", "a dot to eight"):
        plain = median(taken[row, "TCP"])
        cells = ", ".join(f"{median(taken[row, name]):.3f} over {name} ({median(taken[row, name]) / plain:.2f})" for name, _, _ in ways)
        print(f"{row}, in ms of the processor: {cells}")
    return 0


def main():
    words = argparse.ArgumentParser(description=__doc__)
    words.add_argument("program")
    words.add_argument("--streams", type=int, default=1000)
    words.add_argument("--seed", type=int, default=1)
    words.add_argument("--cost", action="store_true")
    chosen = words.parse_args()
    return cost(chosen.program) if chosen.cost else check(chosen.program, chosen.streams, chosen.seed)


if __name__ == "__main__":
    sys.exit(main())
