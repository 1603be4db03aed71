#!/usr/bin/env python3
"""walk.py: the named functions that a viewer's request passes from the socket to its marks, and that an update passes from the turn that
cuts it to the socket, in one thread, as docs/ARCHITECTURE.md tells them. Each has to stand in its file, and its body has to call the one
below it. It prints both walks with their numbers; the status is 1 where a step isn't so."""
import os
import re
import sys

TOP = os.path.dirname(os.path.dirname(os.path.realpath(__file__)))

# (file below crates/, function, and a name in its body where that isn't the next function's; "" where it ends a branch)
IN = [
    ("connection/src/connection.rt", "receive", "receive"),  # the transport's: Socket's is read(2)
    ("connections/src/turn.rt", "hear"),
    ("connections/src/canvas.rt", "hear"),
    ("screen/src/screen.rt", "hear"),
    ("scene/src/scene.rt", "hear"),
    ("viewer_list/src/lib.rt", "hear"),
    ("viewer_list/src/lagging.rt", "hear"),
    ("viewer/src/hearing.rt", "hear_after"),
    ("messages/src/ear.rt", "prepare"),
    ("messages/src/reading.rt", "read"),
    ("messages/src/reading.rt", "short_messages"),
    ("messages/src/heads.rt", "request", "Request"),
    ("viewer/src/hearing.rt", "take_items"),
    ("copy_schedule/src/marks.rt", "request"),
]
OUT = [
    ("connections/src/turn.rt", "cut"),
    ("connections/src/canvas.rt", "cut"),
    ("screen/src/screen.rt", "cut"),
    ("scene/src/scene.rt", "cut_with"),
    ("viewer_list/src/lib.rt", "cut_with"),
    ("viewer_list/src/lagging.rt", "cut_with"),
    ("viewer/src/cutting.rt", "prepare_cut"),
    ("viewer/src/cutting.rt", "plan"),
    ("viewer/src/cutting.rt", "plan_places"),
    ("copy_schedule/src/marks.rt", "prepare_cut"),
    ("copy_schedule/src/marks.rt", "sending", "choose"),
    ("picture/src/picture.rt", "places_of"),
    ("updates/src/taking.rt", "places_of"),
    ("updates/src/taking.rt", "coloured_rectangles"),
    ("updates/src/taking.rt", "coloured_of"),
    ("updates/src/colours.rt", "of_block"),
    ("framebuffer/src/frame.rt", "read", ""),
    ("viewer/src/cutting.rt", "commit_cut", "put_marks"),
    ("connection/src/connection.rt", "start"),
    ("connection/src/backlog.rt", "start"),
    ("updates/src/update.rt", "into_stream", "Stream"),
    ("connection/src/connection.rt", "write"),
    ("connection/src/backlog.rt", "write_some"),
    ("connection/src/backlog.rt", "write_update"),
    ("connection/src/backlog.rt", "make"),
    ("updates/src/stream.rt", "fill"),
    ("updates/src/stream.rt", "put"),
    ("updates/src/remaining.rt", "put_short"),
    ("updates/src/remaining.rt", "put_short"),
    ("updates/src/remaining.rt", "go_on_in_raw"),
    ("encode_raw/src/lib.rt", "put_raw_pixels"),
    ("encode_raw/src/lib.rt", "put_piece"),
    ("encode_raw/src/pixels.rt", "write_pixels"),
    ("pixel_translate/src/bytes.rt", "write_pixels"),
    ("pixel_translate/src/bytes.rt", "write_32_little", "pixel_of"),
    ("connection/src/backlog.rt", "write_once"),
    ("connection/src/recording.rt", "send"),
    ("sockets/src/socket.rt", "send", "send"),  # the peer's, and its socket's
    ("sockets/src/socket.rt", "send", "write"),
]


def bodies_of(path, name):
    """The bodies of the functions of this name, found by their layout: between the braces in the column of their first word."""
    with open(os.path.join(TOP, "crates", path), encoding="utf-8") as it:
        text = it.read()
    for head in re.finditer(rf"^( *)(?:pub(?:\(crate\))? )?fn {name}\b", text, re.M):
        rest = text[head.end():]
        end = re.search(rf"^{head[1]}\}}|^{head[1]}\{{\}}$", rest, re.M)
        begin = re.match(r".*\{$", rest, re.M) or re.search(rf"^{head[1]}\{{$", rest, re.M)
        if begin and end:
            yield rest[begin.end():end.start()]


def walk(title, steps):
    """Prints a walk; how many of its steps aren't so."""
    wrong = 0
    print(f"{title}: {len(steps)}")
    for number, (path, name, *calls) in enumerate(steps):
        bodies = list(bodies_of(path, name))
        below = calls[0] if calls else steps[number + 1][1] if number + 1 < len(steps) else None
        said = ""
        if not bodies:
            said = ": is not there"
        elif below and not any(re.search(rf"\b{re.escape(below)}\b", body) for body in bodies):
            said = f": doesn't call {below}"
        wrong += bool(said)
        print(f"{number + 1:3} {path} {name}{said}")
    return wrong


def main():
    return 1 if walk("in", IN) + walk("out", OUT) else 0


if __name__ == "__main__":
    sys.exit(main())
