#!/usr/bin/env python3
"""The server as plain sets of places: what `vncdemo play` answers to a script, and what viewers show. It shares no code with the crates.

    bench/model.py check FILE..     compares a file's transcripts with the model (crates/examples/data)
    bench/model.py write FOLDER     writes the files of drawn transcripts into FOLDER, the same each time
    bench/model.py moves            prints the table of moves of crates/test_parts_calls
    bench/model.py alike N SEED     prints N more transcripts of viewers that are alike

The picture, the marks and the asked places are kept place by place, messages are read from the bytes that came, and RRE and Hextile
are written from RFC 6143 (7.7.3, 7.7.4) and from this project's choices in docs/PROTOCOL.md."""
import random
import sys
from collections import Counter

SERVER = bytes.fromhex("2018000100ff00ff00ff100800000000")
NOTICES, TEXT_KEPT = 64, 262144
REFUSALS = {1: "BadSize", 2: "BadName", 3: "BadRectLimit", 4: "BadRect", 5: "BadPixelCount", 6: "TextTooLong", 7: "NoViewer", 8: "NumberInUse"}
FAULTS = {1: "BadVersion", 2: "BadSecurityType", 3: "UnknownMessage", 4: "BadBitsPerPixel", 5: "ColourMapUnsupported"}


class Refused(Exception):
    pass


class BadLine(Exception):
    pass


def u16(number):
    return number.to_bytes(2, "big")


def u32(number):
    return number.to_bytes(4, "big")


# --- pixels -----------------------------------------------------------------------------------------------------------------------


class Format:
    """A pixel format by its 16 bytes (RFC 6143, 7.4); `fault` is a number of FAULTS or none."""

    def __init__(self, data):
        self.bits, self.big, self.true = data[0], data[2] != 0, data[3] != 0
        self.fault = 4 if self.bits not in (8, 16, 32) else 5 if not self.true and self.bits != 8 else None
        self.maxima = [int.from_bytes(data[i : i + 2], "big") for i in (4, 6, 8)] if self.true else [7, 7, 3]
        self.shifts = list(data[10:13]) if self.true else [0, 3, 6]
        self.count = self.bits // 8

    def pixel(self, colour):
        number = 0
        for part, most, shift in zip(colour.to_bytes(3, "big"), self.maxima, self.shifts):
            number |= (part * most + 127) // 255 << shift
        return number % (1 << self.bits)

    def bytes(self, pixel):
        return pixel.to_bytes(self.count, "big" if self.big else "little")


COLOUR_MAP = bytes.fromhex("010000000100") + b"".join(
    u16(part * 65535 // most) for p in range(256) for part, most in ((p % 8, 7), (p // 8 % 8, 7), (p // 64, 3)))


# --- encodings: `pixels` are rows of translated pixels ------------------------------------------------------------------------------


def background_of(pixels):
    counts = Counter(pixel for row in pixels for pixel in row)
    return min(counts, key=lambda pixel: (-counts[pixel], pixel))


def runs_of(row, background):
    """The maximal stretches of one pixel that isn't the background, as (x, width, pixel)."""
    starts = [x for x in range(len(row)) if x == 0 or row[x] != row[x - 1]]
    return {(x, end - x, row[x]) for x, end in zip(starts, starts[1:] + [len(row)]) if row[x] != background}


def subrectangles(pixels, background):
    """Runs that consecutive rows share, by y and then by x, as (x, y, width, height, pixel)."""
    runs = [runs_of(row, background) for row in pixels]
    found = []
    for y, row in enumerate(runs):
        for x, w, pixel in sorted(row):
            if y > 0 and (x, w, pixel) in runs[y - 1]:
                continue
            end = y
            while end < len(runs) and (x, w, pixel) in runs[end]:
                end += 1
            found.append((x, y, w, end - y, pixel))
    return found


def raw(form, pixels):
    return b"".join(form.bytes(pixel) for row in pixels for pixel in row)


def rre(form, pixels):
    """The number of the encoding, and the data."""
    background = background_of(pixels)
    subs = subrectangles(pixels, background)
    data = u32(len(subs)) + form.bytes(background)
    for x, y, w, h, pixel in subs:
        data += form.bytes(pixel) + u16(x) + u16(y) + u16(w) + u16(h)
    plain = raw(form, pixels)
    return (2, data) if len(data) < len(plain) else (0, plain)


def tile_bytes(form, pixels, carried):
    """A tile's bytes, and the pair of background and foreground that it leaves."""
    background = background_of(pixels)
    subs = subrectangles(pixels, background)
    others = {sub[4] for sub in subs}
    bits, data, foreground = 0, b"", carried[1]
    if carried[0] != background:
        bits, data = 2, form.bytes(background)
    if len(others) == 1:
        foreground = subs[0][4]
        bits |= 8
        if carried[1] != foreground:
            bits, data = bits | 4, data + form.bytes(foreground)
    elif others:
        foreground, bits = None, bits | 8 | 16
    if subs:
        data += bytes([len(subs) % 256])
        for x, y, w, h, pixel in subs:
            data += (form.bytes(pixel) if len(others) > 1 else b"") + bytes([x * 16 + y, (w - 1) * 16 + h - 1])
    plain = raw(form, pixels)
    if len(data) < len(plain):
        return bytes([bits]) + data, (background, foreground)
    return b"\x01" + plain, (None, None)


def hextile(form, pixels):
    out, carried = b"", (None, None)
    for top in range(0, len(pixels), 16):
        for left in range(0, len(pixels[0]), 16):
            part, carried = tile_bytes(form, [row[left : left + 16] for row in pixels[top : top + 16]], carried)
            out += part
    return 5, out


ENCODINGS = {0: lambda form, pixels: (0, raw(form, pixels)), 2: rre, 5: hextile}


def head(x, y, w, h, encoding):
    return u16(x) + u16(y) + u16(w) + u16(h) + u32(encoding % 2**32)


# --- places -----------------------------------------------------------------------------------------------------------------------


def box(x1, y1, x2, y2):
    return {(x, y) for y in range(y1, y2) for x in range(x1, x2)}


def clipped(x1, y1, x2, y2, width, height):
    """The places of a rectangle, its corners in any order, that are on a screen."""
    (x1, x2), (y1, y2) = sorted((x1, x2)), sorted((y1, y2))
    return box(max(x1, 0), max(y1, 0), min(x2, width), min(y2, height))


def rects(places, reverse_x=False, reverse_y=False):
    """The canonical list: bands of rows with equal places, each with its maximal intervals, as (x1, y1, x2, y2)."""
    rows = {}
    for x, y in places:
        rows.setdefault(y, []).append(x)
    bands = []
    for y in sorted(rows):
        xs = sorted(rows[y])
        starts = [x for i, x in enumerate(xs) if i == 0 or xs[i - 1] != x - 1]
        ends = [x + 1 for i, x in enumerate(xs) if i + 1 == len(xs) or xs[i + 1] != x + 1]
        intervals = list(zip(starts, ends))
        if bands and bands[-1][1] == y and bands[-1][2] == intervals:
            bands[-1][1] = y + 1
        else:
            bands.append([y, y + 1, intervals])
    return [(x1, y1, x2, y2) for y1, y2, intervals in (reversed(bands) if reverse_y else bands)
            for x1, x2 in (reversed(intervals) if reverse_x else intervals)]


# --- one viewer -------------------------------------------------------------------------------------------------------------------


class Viewer:
    def __init__(self, screen):
        self.screen, self.phase, self.version, self.rest, self.fault = screen, "version", None, b"", None
        self.form, self.encoding, self.copyrect, self.resize = Format(SERVER), 0, False, False
        self.copied, self.offset, self.asked, self.notices = set(), (0, 0), set(), []
        self.owed = screen.places() if screen.is_small() else set()
        self.map_owed, self.size, self.shown, self.seen = False, None, {}, None

    def is_open(self):
        return self.phase == "open" and self.fault is None

    def view(self):
        width, height = self.size if self.phase == "open" else (self.screen.width, self.screen.height)
        return min(width, self.screen.width), min(height, self.screen.height)

    # The places from which the copied ones are copied, and the marks under drawing.

    def source(self, place):
        return place[0] - self.offset[0], place[1] - self.offset[1]

    def mark(self, places):
        self.owed |= places
        self.copied -= places

    def copy(self, places, offset):
        if not self.copyrect:
            self.mark(places)
            return
        lost = {(x, y) for x, y in self.copied if self.offset != offset or (x + offset[0], y + offset[1]) in places}
        self.mark(lost)
        waits = (self.copied | places) - self.owed
        self.offset = offset
        owed = {place for place in waits if self.source(place) in self.owed}
        self.copied = waits - owed
        self.owed |= owed

    # What the viewer says. Each reader gives how many bytes it took (0: more are needed) and what is answered.

    def hear(self, piece):
        answer, inputs = b"", []
        self.rest += piece if self.fault is None else b""
        while self.fault is None and self.rest:
            taken, said = getattr(self, "read_" + self.phase)(self.rest, inputs)
            if self.fault is not None or taken == 0:
                break
            self.rest, answer = self.rest[taken:], answer + said
        return answer, inputs

    def read_version(self, data, _inputs):
        if len(data) < 12:
            return 0, b""
        if data[:4] != b"RFB " or data[7:8] != b"." or data[11:12] != b"\n" or not (data[4:7] + data[8:11]).isdigit():
            self.fault = (1, None)
            return 0, b""
        self.version = {b"003.007": 7, b"003.008": 8}.get(data[4:11], 3)
        self.phase = "init" if self.version == 3 else "choice"
        return 12, u32(1) if self.version == 3 else b"\x01\x01"

    def read_choice(self, data, _inputs):
        if data[0] != 1:
            self.fault = (2, None)
            return 0, b""
        self.phase = "init"
        return 1, u32(0) if self.version == 8 else b""

    def read_init(self, _data, _inputs):
        screen = self.screen
        self.phase, self.size = "open", (screen.width, screen.height)
        self.seen = self.size
        return 1, u16(screen.width) + u16(screen.height) + SERVER + u32(len(screen.name)) + screen.name

    def read_open(self, data, inputs):
        count = {0: 20, 2: 4, 3: 10, 4: 8, 5: 6, 6: 8}.get(data[0])
        if count is None:
            self.fault = (3, data[0])
            return 0, b""
        if len(data) >= 4 and data[0] == 2:
            count += 4 * int.from_bytes(data[2:4], "big")
        if len(data) >= 8 and data[0] == 6:
            count += int.from_bytes(data[4:8], "big")
        if len(data) < count:
            return 0, b""
        self.take(data[:count], inputs)
        return count, b""

    def take(self, data, inputs):
        number = lambda at, size: int.from_bytes(data[at : at + size], "big")
        if data[0] == 0:
            form = Format(data[4:])
            if form.fault is not None:
                self.fault = (form.fault, None)
                return
            self.form, self.map_owed = form, not form.true
        elif data[0] == 2:
            listed = [number(at, 4) for at in range(4, len(data), 4)]
            self.encoding = next((encoding for encoding in listed if encoding in ENCODINGS), 0)
            self.copyrect, self.resize = 1 in listed, 2**32 - 223 in listed
            if not self.copyrect:
                self.mark(set(self.copied))
        elif data[0] == 3:
            self.request(data[1] != 0, number(2, 2), number(4, 2), number(6, 2), number(8, 2))
        elif data[0] == 4:
            inputs.append(f"key {{}} {int(data[1] != 0)} {data[4:8].hex()}")
        elif data[0] == 5:
            inputs.append(f"pointer {{}} {data[1]:02x} {number(2, 2)} {number(4, 2)}")
        else:
            text = data[8:]
            inputs.append(f"text {{}} {int(len(text) > TEXT_KEPT)} {hexed(text[:TEXT_KEPT])}")

    def request(self, incremental, x, y, w, h):
        asked = clipped(x, y, x + w, y + h, *self.view())
        self.asked |= asked
        if incremental:
            return
        self.mark(asked | {place for place in self.copied if self.source(place) in asked})
        for place in clipped(x, y, x + w, y + h, *self.seen):
            self.shown.pop(place, None)

    # What is sent.

    def cut(self):
        if not self.is_open():
            return b""
        out = (COLOUR_MAP if self.map_owed else b"") + b"".join(self.notices)
        self.map_owed, self.notices = False, []
        if self.asked and self.resize and self.size != (self.screen.width, self.screen.height):
            return out + self.cut_size()
        unclean = self.asked & (self.owed | self.copied)
        return out + self.cut_rects(unclean) if unclean else out

    def cut_size(self):
        screen = self.screen
        self.size = self.seen = (screen.width, screen.height)
        self.owed, self.copied, self.asked, self.offset, self.shown = screen.places(), set(), set(), (0, 0), {}
        return b"\0\0\0\1" + head(0, 0, screen.width, screen.height, -223)

    def cut_rects(self, unclean):
        limit, (dx, dy) = self.screen.limit, self.offset
        copies = {place for place in self.asked & self.copied if self.source(place) in self.asked}
        copy_rects = rects(copies, dx > 0, dy > 0)[:limit]
        pixel_rects = rects(unclean - copies)[:limit]
        out = b"\0\0" + u16(len(copy_rects) + len(pixel_rects))
        sent = set()
        for x1, y1, x2, y2 in copy_rects:
            out += head(x1, y1, x2 - x1, y2 - y1, 1) + u16(x1 - dx) + u16(y1 - dy)
            places = box(x1, y1, x2, y2)
            before = {place: self.shown.get(self.source(place)) for place in places}
            self.show(before)
            sent |= places
        for x1, y1, x2, y2 in pixel_rects:
            pixels = [[self.form.pixel(self.screen.colour(x, y)) for x in range(x1, x2)] for y in range(y1, y2)]
            encoding, data = ENCODINGS[self.encoding](self.form, pixels)
            out += head(x1, y1, x2 - x1, y2 - y1, encoding) + data
            self.show({(x, y): (self.form.count, pixels[y - y1][x - x1]) for x, y in box(x1, y1, x2, y2)})
            sent |= box(x1, y1, x2, y2)
        self.owed = (self.owed | self.copied) - sent
        self.copied, self.asked, self.offset = set(), set(), (0, 0)
        return out

    def show(self, places):
        for place, pair in places.items():
            if pair is None:
                self.shown.pop(place, None)
            else:
                self.shown[place] = pair

    def shows(self):
        def word(pair):
            return "." if pair is None else f"{pair[1]:0{2 * pair[0]}x}"

        return [" ".join(word(self.shown.get((x, y))) for x in range(self.screen.width)) for y in range(self.screen.height)]


# --- the screen -------------------------------------------------------------------------------------------------------------------


class Screen:
    def __init__(self, width, height, name, limit):
        self.size(width, height)
        if len(name) > 255:
            raise Refused(2)
        if not 1 <= limit <= 1000:
            raise Refused(3)
        self.name, self.limit, self.viewers = name, limit, {}

    def size(self, width, height):
        if not (1 <= width <= 8192 and 1 <= height <= 8192 and width * height <= 2**24):
            raise Refused(1)
        self.width, self.height, self.colours = width, height, {}

    def is_small(self):
        return self.width * self.height <= 2**16

    def places(self):
        return box(0, 0, self.width, self.height)

    def colour(self, x, y):
        return self.colours.get((x, y), 0)

    def write(self, x, y, w, h, colours, marks):
        if x + w > self.width or y + h > self.height:
            raise Refused(4)
        if len(colours) != w * h:
            raise Refused(5)
        for i, colour in enumerate(colours):
            self.colours[x + i % w, y + i // w] = colour
        if marks:
            for viewer in self.viewers.values():
                viewer.mark(box(x, y, x + w, y + h))

    def copy(self, corners, dx, dy, moves):
        to = clipped(*corners, self.width, self.height)
        to = {(x, y) for x, y in to if 0 <= x - dx < self.width and 0 <= y - dy < self.height}
        if not to or (dx, dy) == (0, 0):
            return
        if moves:
            self.colours.update({(x, y): self.colour(x - dx, y - dy) for x, y in to})
        for viewer in self.viewers.values():
            viewer.copy(set(to), (dx, dy))

    def resize(self, width, height):
        self.size(width, height)
        for viewer in self.viewers.values():
            viewer.owed, viewer.copied, viewer.offset = self.places(), set(), (0, 0)
            wide, high = viewer.view()
            viewer.asked = {(x, y) for x, y in viewer.asked if x < wide and y < high}

    def notice(self, data):
        for viewer in self.viewers.values():
            if viewer.is_open() and len(viewer.notices) < NOTICES:
                viewer.notices.append(data)

    def viewer(self, number):
        if number not in self.viewers:
            raise Refused(7)
        return self.viewers[number]


# --- scripts ----------------------------------------------------------------------------------------------------------------------


def hexed(data):
    return data.hex() or "-"


def number(word, most=2**31 - 1, least=0):
    digits = word[1:] if least < 0 and word.startswith("-") else word
    if not (digits.isascii() and digits.isdigit()) or int(digits) > most:
        raise BadLine
    return int(word)


def signed(word):
    return number(word, least=-1)


def viewer_number(word):
    return number(word, 2**64 - 1)


def hex_bytes(word):
    if word == "-":
        return b""
    if not word or len(word) % 2 or any(c not in "0123456789abcdefABCDEF" for c in word):
        raise BadLine
    return bytes.fromhex(word)


def painted(words):
    x, y, w, h = map(number, words[:4])
    data = hex_bytes(words[4])
    if len(data) % 3 or w * h > 2**24 or x + w >= 2**31 or y + h >= 2**31:
        raise BadLine
    colours = [int.from_bytes(data[i : i + 3], "big") for i in range(0, len(data), 3)]
    return x, y, w, h, colours * (w * h) if len(colours) == 1 and w * h != 1 else colours


def answer(screen, words):
    """The lines that a line of these words is answered."""
    verb, count = words[0], len(words)
    if verb in ("paint", "write") and count == 6:
        screen.write(*painted(words[1:]), verb == "paint")
    elif verb == "mark" and count == 5:
        places = clipped(*map(signed, words[1:]), screen.width, screen.height)
        for viewer in screen.viewers.values():
            viewer.mark(places)
    elif verb in ("schedule", "docopy") and count == 7:
        *corners, dx, dy = map(signed, words[1:])
        screen.copy(corners, dx, dy, verb == "docopy")
    elif verb == "resize" and count == 3:
        screen.resize(number(words[1]), number(words[2]))
    elif verb == "bell" and count == 1:
        screen.notice(b"\x02")
    elif verb == "cuttext" and count == 2:
        text = hex_bytes(words[1])
        if len(text) > 65536:
            raise Refused(6)
        screen.notice(b"\x03\0\0\0" + u32(len(text)) + text)
    elif verb in ("connect", "cut", "close") and count == 2 or verb == "hear" and count == 3:
        piece = hex_bytes(words[2]) if verb == "hear" else b""
        return of_viewer(screen, verb, viewer_number(words[1]), piece)
    else:
        raise BadLine
    return ["ok"]


def of_viewer(screen, verb, viewer, piece):
    if verb == "connect":
        if viewer in screen.viewers:
            raise Refused(8)
        screen.viewers[viewer] = Viewer(screen)
        return [f"connect {viewer} {b'RFB 003.008'.hex()}0a"]
    state = screen.viewer(viewer)
    if verb == "close":
        del screen.viewers[viewer]
        return ["ok"]
    if verb == "cut":
        return [f"cut {viewer} {hexed(state.cut())}"]
    said, inputs = state.hear(piece)
    lines = [f"hear {viewer} {hexed(said)}"] + [line.format(viewer) for line in inputs]
    if state.fault is not None:
        code, kind = state.fault
        lines.append(f"closed {viewer} {code} {FAULTS[code]}" + ("" if kind is None else f" {kind}"))
    return lines


def start(words):
    if words[0] != "screen" or len(words) not in (4, 5):
        raise BadLine
    name = b"" if words[3] == "-" else words[3].encode()
    if not words[3]:
        raise BadLine
    return Screen(number(words[1]), number(words[2]), name, number(words[4]) if len(words) == 5 else 50)


def play(lines):
    """The answers to each line of a script, and its status. A line `shows V` is answered what viewer V shows."""
    screen, answers = None, []
    for at, line in enumerate(lines):
        if not line or line.startswith("#"):
            answers.append([])
            continue
        if line.startswith("shows ") and screen is not None:
            answers.append(screen.viewers[int(line[6:])].shows())
            continue
        try:
            words = line.split(" ")
            if screen is None:
                screen = start(words)
                answers.append(["ok"])
            else:
                answers.append(answer(screen, words))
        except Refused as refused:
            answers.append([f"refused {refused.args[0]} {REFUSALS[refused.args[0]]}"])
            if screen is None:
                return answers, 1
        except BadLine:
            looks = sum(said.startswith("shows ") for said in lines[:at])
            answers.append([f"bad line {at + 1 - looks}"])
            return answers, 1
    return answers, 0


def encoded(line):
    """What a line `encode ENCODING FORMAT W H PIXELS` is answered."""
    _, encoding, form, w, h, pixels = line.split(" ")
    form, w, h = Format(SERVER if form == "-" else bytes.fromhex(form)), int(w), int(h)
    data = hex_bytes(pixels)
    colours = [int.from_bytes(data[i : i + 3], "big") for i in range(0, len(data), 3)]
    colours = colours * (w * h) if len(colours) == 1 else colours
    rows = [[form.pixel(colour) for colour in colours[y * w : y * w + w]] for y in range(h)]
    kind, data = ENCODINGS[{"raw": 0, "rre": 2, "hextile": 5}[encoding]](form, rows)
    return [(head(0, 0, w, h, kind) + data).hex()]


# --- transcripts ------------------------------------------------------------------------------------------------------------------


def transcripts(text):
    """The transcripts of a file: each the list of (line, answers), and the status."""
    exchanges = []
    for line in text.split("\n"):
        if line == ">" or line.startswith("> "):
            exchanges.append((line[2:], []))
        elif line.startswith("status ") and exchanges:
            yield exchanges, int(line[7:])
            exchanges = []
        elif exchanges:
            exchanges[-1][1].append(line)


def first_word(lines):
    return next((line.split(" ")[0] for line in lines if line and not line.startswith("#")), "")


def answers_to(lines):
    """The answers to each line of a transcript of `encode` or of `play`, and its status."""
    if first_word(lines) == "encode":
        return [encoded(line) if line.startswith("encode ") else [] for line in lines], 0
    return play(lines)


def check(name):
    agreed = others = 0
    for at, (exchanges, status) in enumerate(transcripts(open(name, encoding="utf-8", newline="").read()), 1):
        said = [line for line, _ in exchanges]
        if first_word(said) == "viewer":
            others += 1
            continue
        given, ends = answers_to(said)
        wanted = [answers for _, answers in exchanges]
        given += [[] for _ in wanted[len(given) :]]
        if given == wanted and ends == status:
            agreed += 1
            continue
        for line, want, give in zip(said, wanted, given):
            if want != give:
                print(f"{name}: transcript {at} differs at '{line[:80]}'\n  written: {want}\n  model:   {give}"[:2000])
                break
        else:
            print(f"{name}: transcript {at} has status {status}, the model {ends}")
    print(f"{name}: {agreed} agree, {others} are of test viewers alone")

# --- drawn transcripts --------------------------------------------------------------------------------------------------------------

VERSIONS = {3: ["524642203030332e3030330a01"], 7: ["524642203030332e3030370a0101"], 8: ["524642203030332e3030380a0101"]}


def format_bytes(bits, big, maxima, shifts, true=1):
    return bytes([bits, 24, big, true]) + b"".join(map(u16, maxima)) + bytes([*shifts, 0, 0, 0])


FORMATS = [format_bytes(bits, big, maxima, shifts) for big in (0, 1) for bits, maxima, shifts in (
    (8, (7, 7, 3), (5, 2, 0)), (16, (31, 63, 31), (11, 5, 0)), (32, (255, 255, 255), (16, 8, 0)))]
# Eight bits, which are the colour's lowest; and a colour map.
LOWEST, MAPPED = format_bytes(8, 0, (0, 0, 255), (0, 0, 0)), format_bytes(8, 0, (0, 0, 0), (0, 0, 0), 0)


def request(incremental, x, y, w, h):
    return (bytes([3, incremental]) + u16(x) + u16(y) + u16(w) + u16(h)).hex()


def encodings(*numbers):
    return (b"\2\0" + u16(len(numbers)) + b"".join(u32(number % 2**32) for number in numbers)).hex()


def chosen_format(form):
    return (b"\0\0\0\0" + form).hex()


class Script:
    """The lines of a script as they are drawn."""

    def __init__(self, comment, width=0, height=0, limit=50):
        self.width, self.height = width, height
        self.lines = ["# " + comment] + ([f"screen {width} {height} drawn {limit}"] if width else [])

    def say(self, *words):
        self.lines.append(" ".join(map(str, words)))

    def paint(self, colours):
        self.say("paint", 0, 0, self.width, self.height, "".join(f"{colour:06x}" for colour in colours))

    def open(self, viewer, version=8):
        self.say("connect", viewer)
        self.say("hear", viewer, VERSIONS[version][0])

    def hear(self, viewer, *messages):
        self.say("hear", viewer, "".join(messages))

    def all(self, viewer, incremental):
        self.hear(viewer, request(incremental, 0, 0, self.width, self.height))
        self.say("cut", viewer)

    def text(self):
        answers, status = answers_to(self.lines)
        blocks = [line + "\n" for said, answered in zip(self.lines, answers) for line in ["> " + said, *answered]]
        return "".join(blocks) + f"status {status}\n"


def drawn_picture(draw, width, height):
    """A picture's colours row by row, in one of several manners."""
    places = [(x, y) for y in range(height) for x in range(width)]
    palette = [draw.randrange(2**24) for _ in range(draw.choice((1, 2, 2, 3, 5, 40)))]
    manner = draw.randrange(8)
    if manner == 0:
        # Stripes, and halves that stand as often as one another.
        down, wide = draw.randrange(2), draw.randint(1, 6)
        return [palette[(place[down] // wide) % len(palette)] for place in places]
    if manner == 1:
        # Tiles of one colour, of two, of several and of all.
        kinds = {}
        for x, y in places:
            kinds.setdefault((x // 16, y // 16), draw.choice((1, 1, 2, 2, 2, 3, 2**24)))
        few = [draw.randrange(2**24) for _ in range(3)]
        return [draw.randrange(2**24) if kinds[x // 16, y // 16] > 3 else
                few[min(draw.randrange(kinds[x // 16, y // 16]), draw.randrange(3))] for x, y in places]
    if manner == 2:
        # All are different.
        return draw.sample(range(2**24), len(places))
    # Each is the one before it, the one above it or a new one of the palette.
    new, across, colours = draw.randint(1, 40), draw.randrange(40), []
    for i in range(len(places)):
        drawn, case = draw.choice(palette), draw.randrange(80)
        before = colours[-1] if colours else drawn
        above = colours[i - width] if i >= width else before
        colours.append(drawn if case < new else before if case < new + across else above)
    return colours


def part_of(draw, side):
    start = draw.randrange(side) if draw.randrange(2) else 0
    return start, draw.randint(1, side - start) if draw.randrange(3) else side - start


def pictures(draw):
    """Each picture is sent in RRE and in Hextile, whole and in parts, in several formats."""
    for at in range(PICTURES):
        tall = at % 10 == 9
        width, height = draw.randint(1, 12 if tall else 40), draw.randint(60, 90) if tall else draw.randint(1, 36)
        while not tall and width * height > 700:
            width, height = draw.randint(1, 40), draw.randint(1, 36)
        script = Script(f"Picture {at + 1}: parts of it in RRE for viewer 1 and in Hextile for viewer 2.", width, height)
        script.paint(drawn_picture(draw, width, height))
        mapped = at % 12 == 11
        for viewer, encoding in ((1, 2), (2, 5)):
            script.open(viewer, draw.choice((3, 7, 8)))
            script.hear(viewer, encodings(encoding))
            for turn in range(4):
                (x, w), (y, h) = part_of(draw, width), part_of(draw, height)
                forms = [*FORMATS, LOWEST] if not mapped else [MAPPED]
                if turn == 0 or not mapped:
                    script.hear(viewer, chosen_format(draw.choice(forms)))
                script.hear(viewer, request(0, x, y, w, h))
                script.say("cut", viewer)
        yield script


def encodings_alone(draw):
    """Pictures coded by the encoders themselves, in RRE and Hextile by turns."""
    sides = [(18, 18), (33, 3), (3, 35), (40, 2), (17, 17), (2, 80), (20, 9), (9, 20)]
    for at in range(ENCODED):
        script = Script(f"Pictures {at * 10 + 1} to {at * 10 + 10}, coded whole.")
        for turn in range(10):
            width, height = draw.choice(sides) if turn % 3 == 0 else (draw.randint(1, 16), draw.randint(1, 12))
            colours = "".join(f"{colour:06x}" for colour in drawn_picture(draw, width, height))
            form = draw.choice([*FORMATS, LOWEST, MAPPED]).hex() if draw.randrange(8) else "-"
            script.say("encode", ("rre", "hextile")[turn % 2], form, width, height, colours)
        yield script


def corners(draw, width, height):
    x, y = draw.randint(-1, width), draw.randint(-1, height)
    return x, y, x + draw.randint(0, 5), y + draw.randint(0, 4)


def marks(draw):
    """Marks, copies and requests by turns; viewer 1 uses CopyRect, now and then not, and viewer 2 doesn't."""
    for at in range(MARKS):
        width, height = ((9, 7), (12, 3), (4, 9))[at % 3]
        script = Script(f"Marks and copies {at + 1}.", width, height, draw.choice((1, 2, 3, 50)))
        script.paint(range(1, width * height + 1))
        for viewer in (1, 2):
            script.open(viewer)
            script.hear(viewer, chosen_format(LOWEST), encodings(0, 1) if viewer == 1 else encodings(0))
            script.all(viewer, 0)
        verb = "schedule" if at % 4 == 3 else "docopy"
        for _ in range(90):
            place, kind = corners(draw, width, height), draw.randrange(16)
            offset = draw.randint(-2, 2), draw.randint(-1, 1)
            x, y = max(place[0], 0), max(place[1], 0)
            if kind < 2:
                script.say("mark", *place)
            elif kind < 5:
                script.say(verb, *place, *offset)
            elif kind < 7:
                script.say(verb, *place, 1, 0)
            elif kind < 8:
                script.say(verb, *place, -1, 1)
            elif kind < 9:
                script.hear(1, request(0, x, y, place[2] - place[0], place[3] - place[1]))
            elif kind < 10:
                script.hear(1, request(1, x, y, place[2] - place[0], place[3] - place[1]))
            elif kind < 12:
                script.hear(draw.choice((1, 1, 2)), request(1, 0, 0, width, height))
            elif kind < 13 and draw.randrange(3) == 0:
                script.hear(1, encodings(0) if draw.randrange(2) else encodings(1, 0))
            else:
                script.say("cut", draw.choice((1, 1, 2)))
        for viewer in (1, 2):
            script.all(viewer, 1)
            script.all(viewer, 0)
        yield script


def alike(draw, scripts=None):
    """One to eight viewers, most of them alike: they ask for the same, and updates are cut for one after the other, with drawing between."""
    for at in range(scripts or ALIKE):
        width, height = draw.choice(((8, 8), (16, 4), (17, 5), (33, 3), (9, 8), (3, 40)))
        script = Script(f"Viewers that are alike {at + 1}.", width, height, draw.choice((1, 2, 50)))
        script.paint(drawn_picture(draw, width, height))
        kinds = [((draw.choice(((0,), (2,), (5,), (1, 2), (1, 5)))), draw.choice([*FORMATS, LOWEST, MAPPED]))
                 for _ in range(draw.choice((1, 1, 1, 2, 3)))]
        viewers = range(1, draw.choice((1, 2, 3, 4, 8)) + 1)
        for viewer in viewers:
            encoding, form = draw.choice(kinds)
            script.open(viewer)
            script.hear(viewer, encodings(*encoding), chosen_format(form))
        for _ in range(8):
            (x, w), (y, h) = ((0, width), (0, height)) if draw.randrange(3) else (part_of(draw, width), part_of(draw, height))
            incremental, busy = draw.randrange(2), draw.choice((0, 0, 1, 4))
            for viewer in viewers:
                if draw.randrange(8):
                    script.hear(viewer, request(incremental, x, y, w, h))
            for viewer in viewers:
                script.say("cut", viewer)
                if draw.randrange(6) < busy:
                    draw_some(draw, script)
            if draw.randrange(2):
                draw_some(draw, script)
        yield script


def draw_some(draw, script):
    """A drawing call of some kind."""
    width, height = script.width, script.height
    kind, (x1, y1, x2, y2) = draw.randrange(8), corners(draw, width, height)
    x1, y1 = min(max(x1, 0), width - 1), min(max(y1, 0), height - 1)
    x2, y2 = min(max(x2, x1 + 1), width), min(max(y2, y1 + 1), height)
    if kind < 3:
        script.say("paint", x1, y1, x2, y2, "".join(f"{draw.choice((0, 0xffffff, 0x10305)):06x}" for _ in range((x2 - x1) * (y2 - y1))))
    elif kind < 4:
        script.paint(drawn_picture(draw, width, height))
    elif kind < 6:
        script.say("docopy", x1, y1, x2, y2, draw.randint(-2, 2), draw.randint(-1, 1))
    elif kind < 7:
        script.say("mark", x1, y1, x2, y2)
    else:
        script.say("bell")


def moves(draw):
    """Copies in every direction over numbered pictures, each looked at whole behind it."""
    directions = [(dx, dy) for dx in (-1, 0, 1) for dy in (-1, 0, 1)]
    for at, (width, height) in enumerate([(9, 7), (9, 7), (9, 7), (1, 4), (6, 1), (1, 1), (5, 5), (16, 2)]):
        script = Script(f"Moves {at + 1}.", width, height)
        script.open(1)
        script.open(2)
        script.hear(1, chosen_format(LOWEST))
        script.hear(2, chosen_format(LOWEST), encodings(1, 0))
        for dx, dy in directions * (1 if width * height < 5 else 3):
            far = draw.choice((1, 1, 2, 3))
            script.paint(range(1, width * height + 1))
            script.all(2, 1)
            for _ in range(draw.choice((1, 1, 2, 3))):
                place = draw.choice(((-(2**31) + 1, -(2**31) + 1, 2**31 - 1, 2**31 - 1), (7, 6, 3, 2), corners(draw, width, height)))
                script.say("docopy", *place, dx * far, dy * far)
            script.all(1, 0)
            script.all(2, 1)
        yield script


# An opening, and messages behind it: what is said, and whether all of it is heard.
MESSAGES = [
    ("an opening alone", ""),
    ("a format of 16 bits", chosen_format(FORMATS[1])),
    ("24 bits, and what isn't read", chosen_format(format_bytes(24, 0, (255, 255, 255), (16, 8, 0))) + "07"),
    ("a colour map of 16 bits", chosen_format(format_bytes(16, 0, (255, 255, 255), (16, 8, 0), 0)) + "07"),
    ("24 bits and a colour map", chosen_format(format_bytes(24, 0, (255, 255, 255), (16, 8, 0), 0)) + "07"),
    ("no encodings, then CopyRect and Raw", encodings() + encodings(1, 0)),
    ("five encodings, DesktopSize first", "02ff" + encodings(-223, 7, 5, 2, 1)[4:]),
    ("RRE and DesktopSize", encodings(2, -223)),
    ("requests of a part, and of changes", request(0, 1, 2, 4, 3) + request(7, 0, 0, 65535, 256)),
    ("a key, a pointer and a text", "040100000000ff0d05010002000106000000000000026869"),
    ("a key that goes up, no text, and a text that hasn't ended", "0400ffff0001000006ffffff0000000006000000ffffffff6869"),
    ("what follows an unknown message isn't read", "05000000000007050100020001"),
    ("an unknown message first", "01"),
    ("texts one behind the other", "06000000000000036162630600000000000001040600000000000000"),
]

OPENINGS = [b"RFB 003.003\n\0", b"RFB 003.005\n\1", b"RFB 003.007\n\1\2", b"RFB 003.008\n\1", b"RFB 003.889\n\5", b"RFB 004.008\n\0",
            b"RFB 003.00", b"hello world\n\1", b"RFB 003.008\n\2\1", b"RFB 003.007\n\0", b"RFB 003.00x\n\1"]


def pieces(_draw):
    """Messages behind an opening, and openings, cut in two wherever that can be, and byte by byte; and what the messages change."""
    whole = [(name, bytes.fromhex(VERSIONS[8][0] + said)) for name, said in MESSAGES]
    whole += [(f"the opening {said!r}", said) for said in OPENINGS]
    for name, said in whole:
        script = Script(f"Cut in two wherever that can be, by a viewer each, and byte by byte: {name}.", 4, 3)
        script.paint(range(1, 13))
        cuts = [(said[:at], said[at:]) for at in range(len(said))] + [tuple(said[i : i + 1] for i in range(len(said)))]
        for viewer, parts in enumerate(cuts, 1):
            script.say("connect", viewer)
            for part in parts:
                script.say("hear", viewer, hexed(part))
        viewers = range(1, len(cuts) + 1) if len(said) < 24 else [1, 7, 13, 14, len(cuts) - 1, len(cuts)]
        # A copy and a new size, whose traces show what the viewer chose.
        for line in ("mark 0 0 1 1", "docopy 1 0 4 1 1 0", "resize 3 3"):
            for viewer in viewers:
                script.say("hear", viewer, request(1, 0, 0, 4, 3))
                script.say("cut", viewer)
            script.say(*line.split(" "))
        for viewer in viewers:
            script.all(viewer, 1)
        yield script


PICTURES, ENCODED, MARKS, ALIKE = 126, 28, 32, 32
LETTERS = "abcdefghijklmnopqrstuvwxyzABCD"


def print_moves():
    """What a picture of 6 by 5 letters is once several rectangles of it were moved."""
    for name, moved in (("TWO", [(1, 1, 5, 4), (5, 4, 3, 2)]), ("THREE", [(0, 0, 2, 5), (3, 0, 5, 5), (1, 2, 6, 3)]),
                        ("APART", [(5, 4, 6, 5), (0, 0, 1, 1), (2, 2, 4, 9)]), ("ROWS", [(0, 1, 6, 3), (-1, 3, 9, 4)])):
        for dx, dy in [(x * far, y * far) for far in (1, 2) for y in (-1, 0, 1) for x in (-1, 0, 1)]:
            to = set().union(*(clipped(*corners, 6, 5) for corners in moved))
            at = [(x - dx, y - dy) if (x, y) in to and 0 <= x - dx < 6 and 0 <= y - dy < 5 else (x, y) for y in range(5) for x in range(6)]
            print(f'    ({name}, ({dx}, {dy}), b"{"".join(LETTERS[y * 6 + x] for x, y in at)}"),')



def write(folder):
    for name, drawn in (("drawn_pictures", pictures), ("drawn_encodings", encodings_alone), ("drawn_marks", marks), ("drawn_moves", moves), ("drawn_pieces", pieces), ("drawn_alike", alike)):
        with open(f"{folder}/{name}.txt", "w", encoding="utf-8", newline="") as file:
            file.write("\n".join(script.text() for script in drawn(random.Random(name))))



if __name__ == "__main__":
    if sys.argv[1:2] == ["check"]:
        for name in sys.argv[2:]:
            check(name)
    elif sys.argv[1:2] == ["write"]:
        write(sys.argv[2])
    elif sys.argv[1:2] == ["alike"]:
        print("\n".join(script.text() for script in alike(random.Random(sys.argv[3]), int(sys.argv[2]))), end="")
    elif sys.argv[1:2] == ["moves"]:
        print_moves()
