#!/usr/bin/env python3
"""rfb_krfb.py SOURCE PREFIX ROOM: the part of KDE's krfb that speaks to viewers, over rfb_compat.h.

SOURCE is the folder of krfb's source, vnc_server is installed below PREFIX, and Qt 6 with its private headers is wanted, but not KDE:
krfb_kde.h has what krfb asks of that, krfb_main.cpp a picture and hooks. krfb's own files are compiled, with rfb_compat.h in place of
rfb/rfb.h and nothing else changed, and with LibVNCServer, where that is installed. Viewers wait until krfb's user admits them, are refused,
leave meanwhile, and see the picture, which is LibVNCServer's; the server is stopped and started. It says what it saw; the status is not 0
where it isn't so, and 77 where there is no Qt."""
import os
import queue
import re
import shutil
import socket
import subprocess
import sys
import threading

from rfb_viewer import HERE, Viewer, await_told, differing, flags_of_real, free_port, layer, says_what_is_wrong

SOURCE, PREFIX, ROOM = sys.argv[1:4]
PARTS = ["rfbserver", "rfbclient", "rfbservermanager", "framebuffer", "invitationsrfbserver", "invitationsrfbclient", "sockethelpers"]
PARTS += ["connectiondialog", "framebuffermanager", "framebufferplugin", "events", "eventsmanager", "eventsplugin"]
OPENING = b"RFB 003.008\n\1\1"


def output_of(*command):
    """What a command prints, or None where it fails."""
    try:
        done = subprocess.run(command, check=False, capture_output=True, text=True)
    except OSError:
        return None
    return done.stdout.strip() if done.returncode == 0 else None


def flags_of_qt():
    """What a program of Qt is compiled with, and the folder of moc and uic; None where something of it isn't there."""
    flags = output_of("pkg-config", "--cflags", "--libs", "Qt6Widgets", "Qt6Network")
    folder = output_of("pkg-config", "--variable=libexecdir", "Qt6Core")
    version = output_of("pkg-config", "--modversion", "Qt6Gui")
    if not flags or not folder or not os.path.exists(f"{folder}/moc"):
        return None
    flags = flags.split()
    private = [f"{it}/{version}{more}" for it in flags if it.endswith("/QtGui") for more in ("", "/QtGui")]
    private += [it.replace("QtGui", "QtCore") for it in private]
    if not os.path.isdir(private[1][2:] + "/private"):
        return None
    return [*flags, *private], folder


def prepare(kind):
    """krfb's files and KDE's headers in a folder of ROOM."""
    folder = f"{ROOM}/{kind}.source"
    shutil.copytree(f"{SOURCE}/krfb", folder)
    if kind == "ours":
        with open(f"{folder}/rfb.h", encoding="utf-8") as it:
            text = it.read()
        with open(f"{folder}/rfb.h", "w", encoding="utf-8") as out:
            out.write(text.replace('#include "rfb/rfb.h"', '#include "rfb_compat.h"'))
    names = {"krfbconfig.h", "krfbdebug.h", "config-krfb.h", "KDNSSD/PublicService"}
    for part in PARTS:
        for name in (f"{part}.cpp", f"{part}.h"):
            with open(f"{folder}/{name}", encoding="utf-8") as it:
                names.update(re.findall(r"#include <(K\w+)>", it.read()))
    os.mkdir(f"{folder}/KDNSSD")
    for name in names:
        with open(f"{folder}/{name}", "w", encoding="utf-8") as out:
            out.write('#include "krfb_kde.h"\n')
    with open(f"{folder}/krfbprivate_export.h", "w", encoding="utf-8") as out:
        out.write("#define KRFBPRIVATE_EXPORT\n")
    return folder


def runs_all(commands):
    """Whether each of the commands ends well; they run side by side."""
    running = [subprocess.Popen(command) for command in commands]
    return all([it.wait() == 0 for it in running])


def build(kind, qt, tools, flags):
    """krfb's files, each by itself, and the program."""
    folder = prepare(kind)
    headers = [it for it in (*(f"{part}.h" for part in PARTS), "krfb_kde.h") if "Q_OBJECT" in text_of(f"{folder}/{it}")]
    compiler = [os.environ.get("CXX", "c++"), "-std=c++17", "-g", "-O1", "-fPIC", "-w", f"-I{folder}", f"-I{HERE}/tools"]
    compiler += [it for it in (*flags, *qt) if it.startswith(("-I", "-D"))]
    shutil.copy(f"{HERE}/tools/krfb_main.cpp", folder)
    shutil.copy(f"{HERE}/tools/krfb_kde.h", folder)
    commands = [[f"{tools}/moc", f"{folder}/{it}", "-o", f"{folder}/moc_{it[:-2]}.cpp"] for it in headers]
    commands.append([f"{tools}/uic", f"{folder}/ui/connectionwidget.ui", "-o", f"{folder}/ui_connectionwidget.h"])
    if not runs_all(commands):
        raise OSError("moc or uic fails")
    sources = [*(f"{part}.cpp" for part in PARTS), "krfb_main.cpp", *(f"moc_{it[:-2]}.cpp" for it in headers)]
    together = os.cpu_count() or 1
    for k in range(0, len(sources), together):
        if not runs_all([*compiler, "-c", "-o", f"{folder}/{it}.o", f"{folder}/{it}"] for it in sources[k : k + together]):
            raise OSError("it does not compile")
    objects = [f"{folder}/{it}.o" for it in sources]
    others = [it for it in (*flags, *qt) if not it.startswith(("-I", "-D"))]
    if not runs_all([[compiler[0], "-o", f"{ROOM}/{kind}", *objects, *others]]):
        raise OSError("it does not link")
    return len(PARTS)


def text_of(path):
    try:
        with open(path, encoding="utf-8") as it:
            return it.read()
    except OSError:
        return ""


class Program:
    """krfb, whose user is asked and answers by lines."""

    def __init__(self, kind):
        self.port = free_port()
        self.log = open(f"{ROOM}/{kind}.log", "wb")
        environment = dict(os.environ, QT_QPA_PLATFORM="offscreen")
        command = [f"{ROOM}/{kind}", str(self.port)]
        self.process = subprocess.Popen(command, stdin=subprocess.PIPE, stdout=subprocess.PIPE, stderr=self.log, env=environment, text=True)
        self.lines = queue.Queue()
        self.counts = {}
        threading.Thread(target=self.listen, daemon=True).start()
        self.await_line("serves")

    def listen(self):
        for line in self.process.stdout:
            word, rest = (line.strip() + " ").split(" ", 1)
            self.counts[word] = int(rest) if rest.strip().isdigit() else 0
            if word not in ("key", "pointer"):
                self.lines.put(line.strip())
        self.lines.put("it ended")

    def await_line(self, wanted):
        """The next line that it prints, which is to begin so."""
        try:
            line = self.lines.get(timeout=20)
        except queue.Empty:
            line = "nothing"
        if not line.startswith(wanted):
            raise OSError(f"it says {line}, and not {wanted}")
        return line

    def told(self):
        return self.counts.get("key", 0) + self.counts.get("pointer", 0)

    def does(self, line):
        self.process.stdin.write(line + "\n")
        self.process.stdin.flush()

    def end(self):
        self.process.kill()
        self.process.wait()
        self.log.close()


def ends(connection):
    """Whether a viewer reads the end of its connection next."""
    connection.settimeout(20)
    try:
        return connection.recv(1) == b""
    except ConnectionResetError:
        return True
    finally:
        connection.close()


def waiting(program):
    """A viewer of whom krfb's user is asked, by the address that it comes from, while nothing is sent to it."""
    connection = socket.create_connection(("127.0.0.1", program.port), 20)
    connection.sendall(OPENING)
    line = program.await_line("asks ")
    if line != "asks 127.0.0.1:%d" % connection.getsockname()[1]:
        raise OSError(f"it {line}, who isn't there")
    connection.settimeout(0.3)
    try:
        raise OSError(f"who waits is sent {connection.recv(100)}")
    except socket.timeout:
        return connection


def holds(program):
    """Viewers that wait, and are refused, or leave and are answered then; and one that is admitted, and leaves."""
    connection = waiting(program)
    program.does("refuse")
    if not ends(connection):
        raise OSError("who is refused is sent something")
    for answer in ("refuse", "accept"):
        waiting(program).close()
        program.does(answer)
    program.await_line("came 1")
    program.await_line("went 1")
    connection = waiting(program)
    program.does("accept")
    program.await_line("came 2")
    connection.settimeout(20)
    if connection.recv(12) != b"RFB 003.008\n":
        raise OSError("who is admitted isn't greeted")
    connection.close()
    program.await_line("went 2")


def look(program):
    """What a viewer sees, that sends keys and pointers, and has squares drawn."""
    viewer = Viewer(program.port)
    viewer.watch(0.5)
    for _ in range(3):
        viewer.tell((ord("d"), 1), (ord("a"), 1), (ord("a"), 0), (0, 5, 6), (1, 7, 8), (0, 7, 8))
        viewer.watch(0.5)
    await_told(viewer, program.told)
    return viewer


def judge(kind):
    """What a viewer saw of a program, and how many inputs that was told, after all that only ours does."""
    program = Program(kind)
    try:
        if kind == "ours":
            holds(program)
        program.does("always")
        viewer = look(program)
        told = program.told()
        if kind == "ours":
            restarts(program, viewer)
        viewer.socket.close()
        program.does("quit")
        if program.process.wait(20) != 0:
            raise OSError(f"it ends with {program.process.returncode}")
        return viewer, told
    finally:
        program.end()


def restarts(program, viewer):
    """The server is stopped, which closes who is served, and started again."""
    while not program.lines.empty():
        program.lines.get()
    program.does("stop")
    if not ends(viewer.socket):
        raise OSError("who is served is not let go")
    program.await_line("went")
    with socket.socket() as it:
        if it.connect_ex(("127.0.0.1", program.port)) == 0:
            raise OSError("it listens though it is stopped")
    program.does("start")
    program.await_line("serves")
    again = Viewer(program.port)
    again.watch(0.5)
    if differing(viewer, again):
        raise OSError("the picture is another once it is started again")
    again.socket.close()


def refuses():
    """Where krfb wants a password nobody is served."""
    port = free_port()
    environment = dict(os.environ, QT_QPA_PLATFORM="offscreen")
    done = subprocess.run([f"{ROOM}/ours", str(port), "password"], check=False, capture_output=True, text=True, env=environment, timeout=20)
    if done.returncode != 2 or "authPasswdData is set" not in done.stderr:
        raise OSError(f"with a password it ends with {done.returncode}")


def main():
    found = flags_of_qt()
    if not found:
        print("left out: Qt 6 with its private headers, which isn't installed")
        sys.exit(77)
    count = build("ours", *found, layer(PREFIX, ROOM))
    ours, told = judge("ours")
    print(f"{count} of its files compile; {ours.width} by {ours.height}, {ours.updates} updates, {told} of {ours.sent} inputs")
    if told != ours.sent or ours.updates < 2:
        raise OSError("that isn't as it should be")
    refuses()
    flags = flags_of_real()
    if not flags:
        print("left out: LibVNCServer, which is not installed")
        return
    build("real", *found, flags)
    real, of_real = judge("real")
    differ = differing(ours, real)
    print(f"LibVNCServer: {real.width} by {real.height}, {of_real} of {real.sent} inputs; {differ or 'no'} places differ")
    if (ours.width, ours.height, ours.name, told) != (real.width, real.height, real.name, of_real) or differ:
        raise OSError("that differs")


says_what_is_wrong(main)
