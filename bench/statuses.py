#!/usr/bin/env python3
"""statuses.py PROGRAM: runs `vncdemo` for its statuses 0, 1, 2 and 5, looks that `serve` answers on 127.0.0.1 and not on 127.0.0.2, and that it
ends with its input, by threads and by one thread. The last line says how many runs there were. The status is 1 where one was wrong."""
import errno
import re
import socket
import subprocess
import sys
import tempfile
import time

OPENING = b"RFB 003.008\n\x01\x01"
GREETING = 12 + 2 + 4 + 24 + 4  # the version, the security types and the result, a ServerInit, and the name `demo` (RFC 6143, 7.1 to 7.3)
SECONDS = 20
MOST_MS = 3000  # within which a server ends behind its input
WAYS = ([], ["--one-thread"])
# one event that a session can't begin with
NO_SESSION = "cut 1\n"


def take(stream, count):
    held = b""
    while len(held) < count:
        piece = stream.recv(count - len(held))
        if not piece:
            raise OSError("closed")
        held += piece
    return held


class Server:
    """A server of `serve` on a port that the system chose."""

    def __init__(self, program, words):
        words = [program, "serve", "--port", "0", "--width", "16", "--height", "16", *words]
        self.process = subprocess.Popen(words, stdin=subprocess.PIPE, stdout=subprocess.PIPE, stderr=subprocess.PIPE)
        said = re.search(r"is served on 127\.0\.0\.1:(\d+)", self.process.stderr.readline().decode())
        if not said:
            self.process.kill()
            raise OSError("the program doesn't serve")
        self.port = int(said[1])

    def visitor(self):
        """Returns the connection of a viewer that is open."""
        stream = socket.create_connection(("127.0.0.1", self.port), SECONDS)
        stream.sendall(OPENING)
        take(stream, GREETING)
        return stream

    def ended(self):
        """Returns what it printed, and its status."""
        printed = self.process.communicate(timeout=SECONDS)[0].decode()
        return printed, self.process.returncode


class Statuses:
    def __init__(self, program):
        self.program = program
        self.runs, self.wrong = 0, []

    def see(self, what, found, *wanted):
        self.runs += 1
        if found not in wanted:
            self.wrong.append(f"{what}: {found!r}, not {' or '.join(map(repr, wanted))}")

    def run(self, words, given="", output=subprocess.PIPE):
        done = subprocess.run([self.program, *words], input=given.encode(), stdout=output, stderr=subprocess.PIPE, timeout=SECONDS, check=False)
        return (done.stdout or b"").decode(), done.returncode

    def statuses(self):
        """Statuses of commands that serve nobody, or viewers of their own."""
        self.see("play", self.run(["play"], "screen 1 1 demo\nbell\n"), ("ok\nok\n", 0))
        self.see("play, a bad line", self.run(["play"], "bell\n"), ("bad line 1\n", 1))
        self.see("a refused command line", self.run(["draw"]), ("", 2))
        self.see("--help", self.run(["serve", "--help"]), ("", 2))
        with tempfile.NamedTemporaryFile("w", suffix=".txt") as session:
            session.write(NO_SESSION)
            session.flush()
            self.see("replay, a bad session", self.run(["replay", session.name])[1], 1)
        self.see("replay, no file", self.run(["replay", session.name]), ("", 5))
        for way in WAYS:
            shown = "viewer 1 shows the screen\nviewer 2 shows the screen\nfinish ok\n"
            self.see(f"self {way}", self.run(["self", *way]), (shown, 0))
            self.see(f"serve, no such screen {way}", self.run(["serve", "--port", "0", "--width", "0", *way]), ("refused 1 BadSize\n", 1))

    def no_output(self):
        """Nothing can be printed."""
        with open("/dev/full", "w", encoding="ascii") as full:
            self.see("play, a full output", self.run(["play"], "screen 1 1 demo\n", full), ("", 5))
            for way in WAYS:
                self.see(f"self, a full output {way}", self.run(["self", *way], "", full), ("", 5))

    def serves(self, way, end):
        """A viewer is served on 127.0.0.1 and on no other address, and no other server on its port."""
        server = Server(self.program, ["--check", *way])
        stream = server.visitor()
        with socket.socket() as other:
            other.settimeout(SECONDS)
            self.see(f"127.0.0.2 {way}", other.connect_ex(("127.0.0.2", server.port)), errno.ECONNREFUSED)
        taken = self.run(["serve", "--port", str(server.port), *way])
        self.see(f"serve, a port in use {way}", taken, ("network fault\n", 5))
        stream.close()
        self.see(f"serve {way}", server.ended(), (f"viewer 1 {end}\nfinish ok\n", 0))

    def ends_with_input(self, way, ends, forever):
        """A server that waits for further viewers ends with its input, within a second."""
        server = Server(self.program, ["--end-with-input", "--viewers", "2", *(["--forever"] if forever else ["--check"]), *way])
        with server.visitor() as stream:
            began = time.monotonic()
            server.process.stdin.close()
            server.process.stdin = None
            printed = [""] if forever else [f"viewer 1 {end}\nfinish ok\n" for end in ends]
            self.see(f"--end-with-input {way}, forever: {forever}", server.ended(), *[(it, 0) for it in printed])
            took = (time.monotonic() - began) * 1000
            self.see(f"--end-with-input {way}: its viewer is let go", stream.recv(1), b"")
        self.see(f"--end-with-input {way}: {took:.0f} ms", took < MOST_MS, True)


def main():
    if len(sys.argv) != 2:
        sys.exit(__doc__)
    it = Statuses(sys.argv[1])
    it.statuses()
    it.no_output()
    for way, end, ends in ((WAYS[0], "Closed", ("Stopped", "Closed")), (WAYS[1], "EndOfInput", ("Gate",))):
        it.serves(way, end)
        for forever in (False, True):
            it.ends_with_input(way, ends, forever)
    for wrong in it.wrong:
        print(f"WRONG: {wrong}")
    print(f"{it.runs} runs and connections, {len(it.wrong)} wrong")
    return 1 if it.wrong else 0


if __name__ == "__main__":
    sys.exit(main())
