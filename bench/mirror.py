#!/usr/bin/env python3
"""mirror.py PROGRAM [--rounds 200] [--mutated 300] [--first 1] [--slow] [--cost]: sources of Python's own for `vncdemo mirror`.

Each round is a source that draws at random, in Raw, CopyRect, RRE and Hextile, with new sizes, texts, bells and entries of the map in between, in pieces
cut anywhere; a viewer behind the mirror has the picture that the source's own model has. What viewers do reaches the source. Hostile sources end by the
line that is wanted and cost no viewer; a session cut at each byte, and so many with bytes changed, from a number on, end each. With --slow also those
that are waited for ten seconds. With --cost it prints instead how many whole pictures of 1920 by 1080 pass in a second, and by how much a place comes
later than it was said. The status is 1 where something is not as it should be."""
import argparse
import queue
import random
import socket
import statistics
import struct
import subprocess
import sys
import threading
import time

RAW, COPY, RRE, HEXTILE, SIZE = 0, 1, 2, 5, -223
FORMAT = bytes([32, 24, 0, 1, 0, 255, 0, 255, 0, 255, 16, 8, 0, 0, 0, 0])  # RFC 6143, 7.4
BLACK = b"\0\0\0"


class Wrong(Exception):
    pass


def receive(stream, count):
    held = bytearray()
    while len(held) < count:
        piece = stream.recv(count - len(held))
        if not piece:
            raise EOFError
        held += piece
    return bytes(held)


class Picture:
    """The model: three bytes for each place, blue, green and red."""

    def __init__(self, width, height):
        self.width, self.height = width, height
        self.rows = [bytearray(BLACK * width) for _ in range(height)]

    def fill(self, x, y, w, h, colour):
        for row in self.rows[y:y + h]:
            row[3 * x:3 * (x + w)] = colour * w

    def put(self, x, y, colours):
        for i, row in enumerate(colours):
            self.rows[y + i][3 * x:3 * x + len(row)] = row

    def copy(self, x, y, w, h, from_x, from_y):
        self.put(x, y, [bytes(row[3 * from_x:3 * (from_x + w)]) for row in self.rows[from_y:from_y + h]])

    def bytes(self):
        return b"".join(self.rows)


class Drawer:
    """Draws at random, on a model, and says so in RFC 6143's words (7.6, 7.7)."""

    def __init__(self, number):
        self.random = random.Random(number)
        self.picture = Picture(self.random.randint(1, 90), self.random.randint(1, 70))
        self.colours = [self.random.randbytes(3) for _ in range(self.random.randint(1, 5))]

    def colour(self):
        return self.random.choice(self.colours)

    def pixel(self, colour):
        return colour + self.random.randbytes(1)

    def area(self, width, height):
        """A rectangle within a size, which may have no place."""
        x, y = self.random.randint(0, width), self.random.randint(0, height)
        return x, y, self.random.randint(0, width - x), self.random.randint(0, height - y)

    def raw(self, x, y, w, h):
        rows = [[self.colour() for _ in range(w)] for _ in range(h)]
        self.picture.put(x, y, [b"".join(row) for row in rows])
        return b"".join(self.pixel(colour) for row in rows for colour in row)

    def copyrect(self, x, y, w, h):
        from_x = self.random.randint(0, self.picture.width - w)
        from_y = self.random.randint(0, self.picture.height - h)
        self.picture.copy(x, y, w, h, from_x, from_y)
        return struct.pack(">HH", from_x, from_y)

    def rre(self, x, y, w, h):
        back = self.colour()
        self.picture.fill(x, y, w, h, back)
        count = self.random.choice((0, 1, 3, self.random.randint(0, 60)))
        said = struct.pack(">I", count) + self.pixel(back)
        for _ in range(count):
            left, top, wide, high = self.area(w, h)
            colour = self.colour()
            self.picture.fill(x + left, y + top, wide, high, colour)
            said += self.pixel(colour) + struct.pack(">HHHH", left, top, wide, high)
        return said

    def tile(self, x, y, w, h, back, fore):
        """A tile, and the two colours that it leaves."""
        if self.random.random() < 0.15:
            return b"\x01" + self.raw(x, y, w, h), None, None
        bits, said = 0, b""
        if back is None or self.random.random() < 0.4:
            back, bits = self.colour(), bits | 2
            said += self.pixel(back)
        self.picture.fill(x, y, w, h, back)
        kind = self.random.choice(("none", "one", "each"))
        if kind == "none":
            return bytes([bits]) + said, back, fore
        if kind == "one" and (fore is None or self.random.random() < 0.4):
            fore, bits = self.colour(), bits | 4
            said += self.pixel(fore)
        count = self.random.randint(0, 12)
        bits |= 8 | (16 if kind == "each" else 0)
        said += bytes([count])
        for _ in range(count):
            left, top = self.random.randrange(w), self.random.randrange(h)
            wide, high = self.random.randint(1, w - left), self.random.randint(1, h - top)
            colour = fore
            if kind == "each":
                colour = self.colour()
                said += self.pixel(colour)
            self.picture.fill(x + left, y + top, wide, high, colour)
            said += bytes([left << 4 | top, wide - 1 << 4 | high - 1])
        return bytes([bits]) + said, back, None if kind == "each" else fore

    def hextile(self, x, y, w, h):
        said, back, fore = b"", None, None
        for top in range(0, h, 16):
            for left in range(0, w, 16):
                tile, back, fore = self.tile(x + left, y + top, min(16, w - left), min(16, h - top), back, fore)
                said += tile
        return said

    def rectangle(self):
        x, y, w, h = self.area(self.picture.width, self.picture.height)
        encoding = self.random.choice((RAW, COPY, RRE, HEXTILE))
        draw = {RAW: self.raw, COPY: self.copyrect, RRE: self.rre, HEXTILE: self.hextile}[encoding]
        return struct.pack(">HHHHi", x, y, w, h, encoding) + draw(x, y, w, h)

    def size(self):
        self.picture = Picture(self.random.randint(1, 90), self.random.randint(1, 70))
        return struct.pack(">HHHHi", 0, 0, self.picture.width, self.picture.height, SIZE)

    def whole(self):
        width, height = self.picture.width, self.picture.height
        return struct.pack(">BxHHHHHi", 0, 1, 0, 0, width, height, RAW) + self.raw(0, 0, width, height)

    def update(self):
        rectangles = [self.rectangle() for _ in range(self.random.randint(0, 6))]
        if self.random.random() < 0.1:
            rectangles.append(self.size())
            rectangles += [self.rectangle() for _ in range(self.random.randint(0, 2))]
        return struct.pack(">BxH", 0, len(rectangles)) + b"".join(rectangles)

    def aside(self):
        """A message that draws nothing."""
        kind = self.random.choice(("bell", "text", "map", "nothing", "nothing"))
        if kind == "bell":
            return b"\x02"
        if kind == "text":
            text = self.random.randbytes(self.random.choice((0, 1, 50, 70_000)))
            return struct.pack(">BxxxI", 3, len(text)) + text
        if kind == "map":
            count = self.random.randint(0, 9)
            return struct.pack(">BxHH", 1, self.random.randint(0, 65535), count) + self.random.randbytes(6 * count)
        return b""


class Source:
    """A server that a mirror connects to: RFC 6143, 7.1 to 7.3, and what the mirror says behind them."""

    def __init__(self, version=8):
        self.listener = socket.create_server(("127.0.0.1", 0))
        self.listener.settimeout(15)
        self.address = "127.0.0.1:%d" % self.listener.getsockname()[1]
        self.version = version
        self.said = queue.Queue()

    def accept(self):
        self.stream = self.listener.accept()[0]
        self.stream.settimeout(20)
        self.stream.setsockopt(socket.IPPROTO_TCP, socket.TCP_NODELAY, 1)

    def open(self, width, height, name=b"made up"):
        version = b"RFB 003.00%d\n" % self.version
        self.stream.sendall(version)
        wrong_if(receive(self.stream, 12) != version, "another version was answered")
        if self.version == 3:
            self.stream.sendall(struct.pack(">I", 1))
        else:
            self.stream.sendall(b"\x02\x10\x01")
            wrong_if(receive(self.stream, 1) != b"\x01", "None wasn't chosen")
        if self.version == 8:
            self.stream.sendall(bytes(4))
        wrong_if(receive(self.stream, 1) != b"\x01", "the source isn't shared")
        self.stream.sendall(struct.pack(">HH", width, height) + bytes([8, 8, 0, 0] + [0] * 12) + struct.pack(">I", len(name)) + name)
        threading.Thread(target=self.listen, daemon=True).start()

    def message(self):
        """What the mirror says next, 7.5."""
        kind = receive(self.stream, 1)[0]
        if kind == 0:
            return "format", receive(self.stream, 19)[3:]
        if kind == 2:
            count = struct.unpack(">xH", receive(self.stream, 3))[0]
            return "encodings", struct.unpack(f">{count}i", receive(self.stream, 4 * count))
        if kind == 3:
            return "request", struct.unpack(">BHHHH", receive(self.stream, 9))
        if kind == 4:
            return "key", struct.unpack(">BxxI", receive(self.stream, 7))
        if kind == 5:
            return "pointer", struct.unpack(">BHH", receive(self.stream, 5))
        if kind == 6:
            return "text", receive(self.stream, struct.unpack(">xxxI", receive(self.stream, 7))[0])
        return "unknown", kind

    def listen(self):
        try:
            while True:
                self.said.put(self.message())
        except OSError:
            self.said.put(("end", None))
        except EOFError:
            self.said.put(("end", None))

    def expect(self, *wanted):
        """The next message of one of these kinds."""
        while True:
            kind, what = self.said.get(timeout=20)
            wrong_if(kind in ("unknown", "end"), f"the mirror says {kind} {what}")
            if kind in wanted:
                return what

    def send(self, said, chance=None):
        """Sends bytes, cut anywhere where a chance is given."""
        while chance and said:
            count = chance.choice((1, 2, 7, 100, 70_000))
            self.stream.sendall(said[:count])
            said = said[count:]
        self.stream.sendall(said)

    def hang_up(self):
        """Ends the connection, though a thread waits for what comes by it."""
        self.stream.shutdown(socket.SHUT_RDWR)
        self.stream.close()

    def close(self):
        self.hang_up()
        self.listener.close()


class Mirror:
    def __init__(self, program, address, *options):
        words = [program, "mirror", address, "--port", "0", *options]
        self.process = subprocess.Popen(words, stdout=subprocess.PIPE, stderr=subprocess.PIPE, text=True)
        self.port = int(self.process.stderr.readline().strip().rpartition(":")[2])
        self.lines = queue.Queue()
        threading.Thread(target=lambda: [self.lines.put(line.strip()) for line in self.process.stdout], daemon=True).start()

    def line(self, beginning, patience=15):
        """The next line that begins so."""
        until = time.monotonic() + patience
        while True:
            try:
                line = self.lines.get(timeout=max(0.01, until - time.monotonic()))
            except queue.Empty:
                raise Wrong(f"no line begins with {beginning!r}") from None
            if line.startswith(beginning):
                return line

    def end(self):
        self.process.kill()
        self.process.wait()


class Viewer:
    """A viewer behind the mirror, which lists CopyRect and DesktopSize besides Raw."""

    def __init__(self, port):
        self.stream = socket.create_connection(("127.0.0.1", port))
        self.stream.settimeout(20)
        self.stream.setsockopt(socket.IPPROTO_TCP, socket.TCP_NODELAY, 1)
        receive(self.stream, 12)
        self.stream.sendall(b"RFB 003.008\n")
        receive(self.stream, 2)
        self.stream.sendall(b"\x01")
        receive(self.stream, 4)
        self.stream.sendall(b"\x01")
        width, height = struct.unpack(">HH", receive(self.stream, 20)[:4])
        self.name = receive(self.stream, struct.unpack(">I", receive(self.stream, 4))[0])
        self.picture = Picture(width, height)
        self.stream.sendall(struct.pack(">BxH3i", 2, 3, RAW, COPY, SIZE))
        self.copies, self.bells, self.texts = 0, 0, []
        self.ask(0)

    def ask(self, incremental):
        self.stream.sendall(struct.pack(">BBHHHH", 3, incremental, 0, 0, 65535, 65535))

    def rectangle(self):
        x, y, w, h, encoding = struct.unpack(">HHHHi", receive(self.stream, 12))
        if encoding == SIZE:
            self.picture = Picture(w, h)
        elif encoding == COPY:
            self.copies += 1
            self.picture.copy(x, y, w, h, *struct.unpack(">HH", receive(self.stream, 4)))
        else:
            wrong_if(encoding != RAW, f"the mirror uses the encoding {encoding}")
            pixels = receive(self.stream, 4 * w * h)
            colours = bytearray(3 * w * h)
            for i in range(3):
                colours[i::3] = pixels[i::4]
            self.picture.put(x, y, [colours[3 * w * i:3 * w * (i + 1)] for i in range(h)])

    def message(self):
        """Takes a message, and returns its type."""
        kind = receive(self.stream, 1)[0]
        if kind == 0:
            for _ in range(struct.unpack(">xH", receive(self.stream, 3))[0]):
                self.rectangle()
        elif kind == 2:
            self.bells += 1
        elif kind == 3:
            self.texts.append(receive(self.stream, struct.unpack(">xxxI", receive(self.stream, 7))[0]))
        else:
            raise Wrong(f"the mirror says a message of type {kind}")
        return kind

    def until_text(self, text):
        """Takes what comes up to a text, and asks on."""
        while True:
            if self.message() == 0:
                self.ask(1)
            if self.texts and self.texts[-1] == text:
                return

    def whole(self):
        """Asks for all of the picture, and takes two updates: one may be of an earlier request."""
        self.ask(0)
        while self.message() != 0:
            pass
        return self.picture


def wrong_if(condition, why):
    if condition:
        raise Wrong(why)


def text_message(text):
    return struct.pack(">BxxxI", 3, len(text)) + text


def compare(viewer, picture, number):
    """The viewer's picture is the model's, at once or within some updates."""
    until = time.monotonic() + 10
    while (viewer.picture.width, viewer.picture.height, viewer.picture.bytes()) != (picture.width, picture.height, picture.bytes()):
        wrong_if(time.monotonic() > until, f"round {number}: another picture")
        viewer.whole()


def check_first(source, raw, width, height):
    """What is said first: the server's own format, the encodings, and a request for all (7.5.1 to 7.5.3)."""
    wrong_if(source.expect("format") != FORMAT, "another format is asked for")
    listed = source.expect("encodings")
    wrong_if(listed != ((RAW, COPY, SIZE) if raw else (COPY, HEXTILE, RRE, RAW, SIZE)), f"these encodings are listed: {listed}")
    wrong_if(source.expect("request") != (0, 0, 0, width, height), "not all of the picture is asked for")


def draw_on(source, drawer, viewer, number, chance):
    """Some updates, each behind a request, and then the comparison."""
    for _ in range(drawer.random.randint(1, 6)):
        before = drawer.picture
        source.send(drawer.update() + drawer.aside(), chance)
        asked = source.expect("request")
        picture = drawer.picture
        is_new = picture is not before
        wrong_if(asked != (0 if is_new else 1, 0, 0, picture.width, picture.height), f"round {number}: {asked} is asked")
        if is_new:
            source.send(drawer.whole(), chance)
            source.expect("request")
    mark = b"round %d" % number
    source.send(text_message(mark), chance)
    viewer.until_text(mark)
    compare(viewer, drawer.picture, number)


def rounds(program, first, count):
    """Sources at random, one mirror each for ten rounds of drawing."""
    copies = 0
    for number in range(first, first + count, 10):
        drawer = Drawer(number)
        source = Source(drawer.random.choice((3, 7, 8)))
        raw = drawer.random.random() < 0.3
        mirror = Mirror(program, source.address, *(["--raw"] if raw else []))
        source.accept()
        width, height = drawer.picture.width, drawer.picture.height
        source.open(width, height)
        check_first(source, raw, width, height)
        source.send(drawer.whole())
        source.expect("request")
        mirror.line(f"source came: {width} by {height}, made up")
        viewer = Viewer(mirror.port)
        wrong_if(viewer.name != b"made up", "another name")
        for i in range(min(10, first + count - number)):
            draw_on(source, drawer, viewer, number + i, drawer.random)
        copies += viewer.copies
        source.close()
        mirror.line("source left: it closed the connection")
        compare(viewer, drawer.picture, number)
        mirror.end()
    print(f"{count} rounds at random: the same picture, {copies} copies passed as copies")


def inputs(program):
    """What a viewer does reaches the source; with --view-only it doesn't; what it holds is let go when it leaves."""
    for options in ([], ["--view-only"]):
        source = Source()
        mirror = Mirror(program, source.address, *options)
        source.accept()
        source.open(20, 10)
        check_first(source, False, 20, 10)
        source.send(struct.pack(">BxH", 0, 0))
        viewer = Viewer(mirror.port)
        mirror.line("viewer 1 came from 127.0.0.1:")
        viewer.stream.sendall(struct.pack(">BBxxI", 4, 1, 0xFFE3) + struct.pack(">BBHH", 5, 1, 3, 4) + struct.pack(">BxxxI", 6, 2) + b"hi")
        time.sleep(0.2)
        viewer.stream.close()
        mirror.line("viewer 1 left: ")
        if options:
            time.sleep(0.3)
            left = list(source.said.queue)
            wrong_if(any(kind in ("key", "pointer", "text") for kind, _ in left), "--view-only hands something on")
        else:
            wrong_if(source.expect("key") != (1, 0xFFE3), "another key")
            wrong_if(source.expect("pointer") != (1, 3, 4), "another pointer")
            wrong_if(source.expect("text") != b"hi", "another text")
            let_go = [source.expect("key", "pointer") for _ in range(2)]
            wrong_if(sorted(let_go, key=len) != [(0, 0xFFE3), (0, 3, 4)], f"{let_go} lets go")
        source.close()
        mirror.end()
    print("inputs: handed on, let go, and not with --view-only")


def server_init(width, height, long=0):
    return struct.pack(">HH", width, height) + FORMAT + struct.pack(">I", long)


OPEN = b"RFB 003.008\n" + b"\x01\x01" + bytes(4) + server_init(40, 20)


def update(x, y, w, h, encoding, data=b""):
    return OPEN + struct.pack(">BxHHHHHi", 0, 1, x, y, w, h, encoding) + data


HOSTILE = [
    (b"HTTP/1.1 400 Bad Request\r\n", "it is no VNC server"),
    (b"RFB 003.0x8\n", "it is no VNC server"),
    (b"RFB 003.008\n\x02\x02\x10", "it offers not the security type None, but 2 16"),
    (b"RFB 003.008\n\x00" + struct.pack(">I", 8) + b"too\x00many", "it refused: too.many"),
    (b"RFB 003.007\n\x00" + struct.pack(">I", 1 << 31) + b"x" * 300, "it refused: " + "x" * 255),
    (b"RFB 003.008\n\x01\x01" + struct.pack(">II", 1, 2) + b"no", "it refused: no"),
    (b"RFB 003.003\n" + struct.pack(">I", 2), "it decided on the security type 2, and not on None"),
    (b"RFB 003.889\n" + struct.pack(">II", 0, 3) + b"why", "it refused: why"),
    (OPEN[:18] + server_init(0, 5), "its picture is too large, or has no place"),
    (OPEN[:18] + server_init(8193, 1), "its picture is too large, or has no place"),
    (OPEN[:18] + server_init(8192, 8192), "its picture is too large, or has no place"),
    (OPEN[:18] + server_init(40, 20, 0xFFFFFFFF) + bytes(100_000), "it closed the connection"),
    (OPEN + b"\x63", "it said a message of type 99"),
    (update(0, 0, 8, 8, 7), "it used the encoding 7"),
    (update(39, 0, 2, 1, RAW), "it said a rectangle off its picture"),
    (update(0, 19, 1, 2, HEXTILE), "it said a rectangle off its picture"),
    (update(0, 0, 10, 10, COPY, struct.pack(">HH", 31, 0)), "it said a copy from off its picture"),
    (update(0, 0, 10, 10, HEXTILE, b"\x00"), "it said a tile without a background"),
    (update(0, 0, 10, 10, HEXTILE, b"\x0a" + bytes(4) + b"\x01"), "it said a tile without a foreground"),
    (update(0, 0, 0, 7, SIZE), "its picture is too large, or has no place"),
    (update(0, 0, 9000, 9000, SIZE), "its picture is too large, or has no place"),
    (update(0, 0, 10, 10, RRE, b"\xff\xff\xff\xff"), "it closed the connection"),
    (OPEN + text_message(b"")[:4] + b"\xff\xff\xff\xff" + bytes(200_000), "it closed the connection"),
]

SLOW = [b"", b"RFB 003.008\n", OPEN, OPEN + b"\x00\x00", update(0, 0, 10, 10, RAW, bytes(7))]


def say(source, said, patience=0.0):
    """Says bytes to whom connects, reads what is answered meanwhile, and ends."""
    source.accept()
    try:
        source.stream.sendall(said)
        if not patience:
            source.stream.shutdown(socket.SHUT_WR)
        source.stream.settimeout(patience or 15)
        while source.stream.recv(4096):
            pass
    except OSError:
        pass
    source.stream.close()


def hostile(program):
    """Named ends, one behind the other, in front of a viewer who stays."""
    source = Source()
    mirror = Mirror(program, source.address)
    source.accept()
    source.open(40, 20)
    source.send(update(0, 0, 40, 20, RAW, bytes(range(200)) * 16)[len(OPEN):])
    source.expect("request")
    source.expect("request")
    viewer = Viewer(mirror.port)
    viewer.whole()
    source.hang_up()
    mirror.line("source left: it closed the connection")
    before = ""
    for said, wanted in HOSTILE:
        say(source, said)
        # what a source that wasn't shown ended by is told once
        if said.startswith(OPEN) or wanted != before:
            line = mirror.line("source left: ", 5)
            wrong_if(line != "source left: " + wanted, f"{line!r} in place of {wanted!r}")
        before = wanted
        viewer.whole()
    wrong_if((viewer.picture.width, viewer.picture.height) != (40, 20), "the viewer's picture is another")
    source.listener.close()
    mirror.end()
    print(f"{len(HOSTILE)} hostile sources: each ended by its name, and the viewer stays")


def once(program, said, patience=0.0):
    """The line by which a source ends that says these bytes, with --once."""
    source = Source()
    mirror = Mirror(program, source.address, "--once")
    say(source, said, patience)
    source.listener.close()
    line = mirror.line("source left: ")
    status = mirror.process.wait(10)
    wrong_if(status not in (0, 6), f"the status {status}")
    return line


def slow(program):
    threads, lines = [], []
    for said in SLOW:
        threads.append(threading.Thread(target=lambda said=said: lines.append(once(program, said, 20.0))))
        threads[-1].start()
    for thread in threads:
        thread.join()
    wrong_if(lines != ["source left: it said nothing for ten seconds"] * len(SLOW), f"{lines}")
    print(f"{len(SLOW)} silent sources: each ended after ten seconds")


def session(number):
    """A whole session's bytes."""
    drawer = Drawer(number)
    said = OPEN[:18] + server_init(drawer.picture.width, drawer.picture.height) + drawer.whole()
    return said + b"".join(drawer.update() + drawer.aside() for _ in range(3))


def cuts(program):
    """One of each message, cut at each byte."""
    drawer = Drawer(1)
    drawer.picture = Picture(40, 20)
    said = OPEN + struct.pack(">BxH", 0, 5)
    for x, y, w, h, encoding in ((0, 0, 3, 2, RAW), (1, 1, 4, 4, COPY), (2, 3, 9, 9, RRE), (0, 0, 20, 18, HEXTILE), (0, 0, 30, 10, SIZE)):
        draw = {RAW: drawer.raw, COPY: drawer.copyrect, RRE: drawer.rre, HEXTILE: drawer.hextile, SIZE: lambda *_: b""}[encoding]
        said += struct.pack(">HHHHi", x, y, w, h, encoding) + draw(x, y, w, h)
    said += b"\x02" + text_message(b"text") + struct.pack(">BxHH", 1, 0, 1) + bytes(6)
    for end in range(len(said) + 1):
        line = once(program, said[:end])
        wrong_if(line != "source left: it closed the connection", f"cut at {end}: {line}")
    print(f"{len(said) + 1} cuts: each ended")


def mutated(program, first, count):
    lines = {}
    for number in range(first, first + count):
        chance = random.Random(number)
        said = bytearray(session(number))
        for _ in range(chance.randint(1, 4)):
            at = chance.randrange(len(said))
            kind = chance.choice(("change", "put in", "leave out"))
            if kind == "change":
                said[at] = chance.randrange(256)
            elif kind == "put in":
                said[at:at] = chance.randbytes(chance.randint(1, 9))
            else:
                del said[at:at + chance.randint(1, 9)]
        line = once(program, bytes(said))
        wrong_if(not line.startswith("source left: "), f"session {number}: {line!r}")
        lines[line[:40]] = lines.get(line[:40], 0) + 1
    print(f"{count} sessions with bytes changed: each ended, in {len(lines)} ways")


def pass_over(stream, room=bytearray(1 << 20)):
    """Reads an update of Raw, and forgets it. Returns how many places it had."""
    places = 0
    for _ in range(struct.unpack(">BxH", receive(stream, 4))[1]):
        _, _, w, h, _ = struct.unpack(">HHHHi", receive(stream, 12))
        places += w * h
        left = 4 * w * h
        while left:
            left -= stream.recv_into(room, min(left, len(room)))
    return places


def pictures(program, encoding, seconds=5):
    """How many whole pictures of 1920 by 1080 a source is rid of in a second, where each place changes, and how many reach a viewer."""
    width, height = 1920, 1080
    head = struct.pack(">BxHHHHHi", 0, 1, 0, 0, width, height, encoding)
    if encoding == RAW:
        bodies = [head + bytes([i]) * (4 * width * height) for i in (50, 200)]
    else:
        bodies = [head + (b"\x02" + bytes([i]) * 4) * (width // 16 * -(-height // 16)) for i in (50, 200)]
    source = Source()
    mirror = Mirror(program, source.address, *(["--raw"] if encoding == RAW else []))
    source.accept()
    source.open(width, height)
    sent = 0

    def serve():
        nonlocal sent
        while True:
            try:
                source.expect("request")
                source.send(bodies[sent % 2])
            except (Wrong, OSError, queue.Empty):
                return
            sent += 1

    threading.Thread(target=serve, daemon=True).start()
    mirror.line("source came: ")
    viewer = Viewer(mirror.port)
    pass_over(viewer.stream)
    places, first, began = 0, sent, time.monotonic()
    while time.monotonic() - began < seconds:
        viewer.ask(1)
        places += pass_over(viewer.stream)
    took = time.monotonic() - began
    rates = (sent - first) / took, places / (width * height) / took
    source.close()
    mirror.end()
    return rates


def delays(program, count=300):
    """How long after it was said a place is at the viewer, in milliseconds."""
    source = Source()
    mirror = Mirror(program, source.address)
    source.accept()
    source.open(1920, 1080)
    source.expect("request")
    source.send(struct.pack(">BxHHHHHi", 0, 1, 0, 0, 1920, 1080, RAW) + bytes(4 * 1920 * 1080))
    mirror.line("source came: ")
    viewer = Viewer(mirror.port)
    while viewer.message() != 0:
        pass
    found = []
    for i in range(count):
        viewer.ask(1)
        source.expect("request")
        time.sleep(0.01)
        began = time.monotonic()
        source.send(struct.pack(">BxHHHHHi", 0, 1, i, 5, 1, 1, RAW) + bytes([1 + i % 200] * 4))
        while viewer.message() != 0:
            pass
        found.append(1000 * (time.monotonic() - began))
    source.close()
    mirror.end()
    return statistics.median(found), sorted(found)[count * 95 // 100]


def cost(program):
    print("| whole pictures of 1920 by 1080 a second, each place changes | from the source | to a viewer |\n|---|---|---|")
    for encoding, name in ((RAW, "Raw"), (HEXTILE, "Hextile, a colour for each tile")):
        came, went = pictures(program, encoding)
        print(f"| {name} | {came:.0f} | {went:.0f} |")
    median, most = delays(program)
    print(f"\na place comes {median:.2f} ms behind its source's write; 95 of 100 within {most:.2f} ms")


def main():
    parser = argparse.ArgumentParser(description=__doc__)
    parser.add_argument("program")
    parser.add_argument("--rounds", type=int, default=200)
    parser.add_argument("--mutated", type=int, default=300)
    parser.add_argument("--first", type=int, default=1)
    parser.add_argument("--slow", action="store_true")
    parser.add_argument("--cost", action="store_true")
    options = parser.parse_args()
    if options.cost:
        return cost(options.program)
    try:
        inputs(options.program)
        rounds(options.program, options.first, options.rounds)
        hostile(options.program)
        cuts(options.program)
        mutated(options.program, options.first, options.mutated)
        if options.slow:
            slow(options.program)
    except (Wrong, EOFError, OSError, queue.Empty) as why:
        print(f"wrong: {type(why).__name__} {why}")
        return 1
    return 0


if __name__ == "__main__":
    sys.exit(main())
