#!/usr/bin/env python3
"""woken.py PROGRAM: with threads each viewer's sender sleeps until a call wakes it. Sixty viewers of `serve --forever`, two of which share a group
of senders, since their numbers differ by 64, are each sent the bells, texts and places that they are to be sent; one that says what no viewer says
is closed. The status is 1 where one of these takes longer than 10 seconds."""
import argparse
import struct
import subprocess
import sys
import time

from soak import Viewer, Wrong

PORT, WIDTH, HEIGHT, VIEWERS = 5978, 64, 48, 60
BELL = b"\x02"
TEXT = b"a text"


def start(program):
    words = ["serve", "--forever", "--port", str(PORT), "--width", str(WIDTH), "--height", str(HEIGHT), "--viewers", str(VIEWERS)]
    server = subprocess.Popen([program, *words], stdin=subprocess.DEVNULL, stdout=subprocess.DEVNULL, stderr=subprocess.DEVNULL)
    for _ in range(100):
        try:
            Viewer(PORT, seconds=10).stream.close()
            return server
        except (ConnectionRefusedError, EOFError):
            time.sleep(0.05)
    raise Wrong("nobody listens")


def paint(viewer, x, y):
    """Presses the first button at a place (7.5.5): the server paints it."""
    viewer.say(struct.pack(">BBHH", 5, 1, x, y))


def expect(viewer, message, what):
    if viewer.take(len(message)) != message:
        raise Wrong(what)


def bells_and_texts(viewers, other):
    """Each comes to viewers that have asked for nothing."""
    other.say(struct.pack(">BBHI", 4, 1, 0, 0x61))
    for it in viewers:
        expect(it, BELL, "another message than a bell")
    other.say(struct.pack(">BxxxI", 6, len(TEXT)) + TEXT)
    for it in viewers:
        expect(it, struct.pack(">BxxxI", 3, len(TEXT)) + TEXT, "another message than the text")


def places(viewers, other):
    """A place that is painted comes to each that waits for it, again and again, and else once it is asked for."""
    for at in range(8):
        for it in viewers:
            it.ask(1)
        time.sleep(0.02)  # now all wait; where one doesn't yet, it has the place at once
        paint(other, at, 1)
        if any(it.update() != 1 for it in viewers):
            raise Wrong("another update than of one place")
    paint(other, 0, 3)
    time.sleep(0.1)
    for it in viewers:
        it.ask(1)
    if any(it.update() != 1 for it in viewers):
        raise Wrong("another update than of one place, asked for later")


def corner(one, same_group, other):
    """Who waits for one place is sent it, though others were painted before, for each of which its group is woken."""
    one.ask(1, WIDTH - 1, HEIGHT - 1, 1, 1)
    for at in range(20):
        same_group.ask(1)
        time.sleep(0.005)
        paint(other, at, 5)
        if same_group.update() != 1:
            raise Wrong("another update than of one place")
    paint(other, WIDTH - 1, HEIGHT - 1)
    if one.update() != 1:
        raise Wrong("another update than of the corner")


def fault(viewer):
    """A message of no type closes who waits for a place (7.5)."""
    viewer.ask(1, 1, HEIGHT - 1, 1, 1)
    time.sleep(0.05)
    viewer.say(b"\x63")
    try:
        viewer.take(1)
    except EOFError:
        return
    raise Wrong("something was sent behind a fault")


def main():
    words = argparse.ArgumentParser(description=__doc__)
    words.add_argument("program")
    server = start(words.parse_args().program)
    try:
        one = Viewer(PORT, seconds=10)
        for _ in range(63):
            Viewer(PORT, seconds=10).stream.close()
        same_group = Viewer(PORT, seconds=10)
        viewers = [one, same_group, *(Viewer(PORT, seconds=10) for _ in range(VIEWERS - 4))]
        other = Viewer(PORT, seconds=10)
        for it in viewers:
            it.picture()
        bells_and_texts(viewers, other)
        places(viewers, other)
        corner(one, same_group, other)
        fault(viewers.pop())
        print("all were woken")
    except (Wrong, OSError, EOFError) as error:
        print(f"FAILED {type(error).__name__}: {error}")
        return 1
    finally:
        server.kill()
    return 0


if __name__ == "__main__":
    sys.exit(main())
