#!/usr/bin/env python3
"""rfb_programs.py nsfb|lcd4linux SOURCE PREFIX ROOM: a program of others over rfb_compat.h.

SOURCE is the folder of libnsfb's source, or of lcd4linux's, and vnc_server is installed below PREFIX. The one file that has the line
`#include <rfb/rfb.h>` is compiled with rfb_compat.h in its place and nothing else changed, and with LibVNCServer, where that is installed.
A viewer looks at the program, and sends keys and pointers in one piece: each reaches the program's own hooks, and the picture is
LibVNCServer's. It says what it saw; the status is not 0 where it isn't so."""
import glob
import os
import re
import shutil
import signal
import socket
import subprocess
import sys
import time

from rfb_viewer import HERE, Viewer, await_told, changed, compiles, counted, differing, flags_of_real, free_port, layer, says_what_is_wrong

KIND, SOURCE, PREFIX, ROOM = sys.argv[1:5]
KEYS = [(key, down) for key in b"acdefghijk" for down in (1, 0)]
MOVES = [(0, 20 + 3 * k, 30 + 2 * k) for k in range(10)]


def build_nsfb(kind, flags):
    """libnsfb's surface for VNC and what it needs, with nsfb_events.c."""
    with open(f"{SOURCE}/src/plot/Makefile", encoding="utf-8") as it:
        plotters = re.search(r"DIR_SOURCES := (.*)", it.read())[1].split()
    parts = [f"{SOURCE}/src/{it}.c" for it in ("libnsfb", "dump", "cursor", "palette", "surface/surface", "surface/ram")]
    parts += [f"{SOURCE}/src/plot/{it}" for it in plotters]
    return compiles("-w", f"-I{SOURCE}/include", f"-I{SOURCE}/src", "-o", f"{ROOM}/{kind}", *parts, f"{ROOM}/{kind}.c", f"{HERE}/tools/nsfb_events.c", *flags)


def build_lcd4linux(kind, flags):
    """lcd4linux with its driver for VNC alone, as its Makefile.am names its parts."""
    folder = f"{ROOM}/lcd4linux"
    os.makedirs(folder, exist_ok=True)
    for path in glob.glob(f"{SOURCE}/*.h"):
        shutil.copy(path, folder)
    with open(f"{folder}/config.h", "w", encoding="utf-8") as out:
        out.write('#define VERSION "0"\n#define WITH_VNC 1\n#define HAVE_STRNDUP 1\n')
    with open(f"{SOURCE}/Makefile.am", encoding="utf-8") as it:
        parts = re.findall(r"\w+\.c", re.search(r"\nlcd4linux_SOURCES =(.*?)\n\n", it.read(), re.S)[1])
    for name in [*parts, "drv_generic_graphic.c", "drv_generic_keypad.c"]:
        shutil.copy(f"{SOURCE}/{name}", folder)
    shutil.copy(f"{ROOM}/{kind}.c", f"{folder}/{kind}.c")
    options = ["-w", "-fcommon", "-D_GNU_SOURCE", f"-I{folder}"]
    counts = ["-include", f"{HERE}/tools/rfb_count.h", *(["-DRFB_COUNT_REAL"] if kind == "real" else [])]
    if not compiles(*options, *counts, *(it for it in flags if it.startswith("-I")), "-c", "-o", f"{ROOM}/{kind}.o", f"{folder}/{kind}.c"):
        return False
    others = [f"{folder}/{name}" for name in [*parts, "drv_generic_graphic.c", "drv_generic_keypad.c"]]
    return compiles(*options, "-o", f"{ROOM}/{kind}", *others, f"{ROOM}/{kind}.o", *flags, "-lm")


CONFIG = """
Display VNC {
    Driver 'VNC'
    Font '6x8'
    Port 'PORT'
    Xres '320'
    Yres '140'
    Bpp '4'
    Buttons '4'
    Keypadxofs '40'
    Keypadyofs '70'
    Keypadcol '8745877'
    Osd_showtime '60000'
    PASSWORD
}
Widget Hello {
    class 'Text'
    expression 'a text'
    width 20
}
Widget Beat {
    class 'Icon'
    speed 20
    Bitmap {
        Row1 '*...*'
        Row4 '.***.'
        Row8 '*****'
    }
}
Layout Both {
    Row1 {
        Col1 'Hello'
    }
    Row3 {
        Col3 'Beat'
    }
}
Display 'VNC'
Layout 'Both'
"""


def start(kind, port, password=False):
    """The program, whose stdout goes to ROOM/out and whose stderr to ROOM/log."""
    command = [f"{ROOM}/{kind}"]
    if KIND == "lcd4linux":
        path = f"{ROOM}/{port}.conf"
        with open(os.open(path, os.O_CREAT | os.O_TRUNC | os.O_WRONLY, 0o600), "w", encoding="utf-8") as out:
            out.write(CONFIG.replace("PORT", str(port)).replace("PASSWORD", "Password 'secret'" if password else ""))
        command += ["-F", "-q", "-f", path, "-p", f"{ROOM}/pid"]
    with open(f"{ROOM}/out", "wb") as out, open(f"{ROOM}/log", "wb") as log:
        return subprocess.Popen(command, stdout=out, stderr=log, stdin=subprocess.DEVNULL)


def said(pattern):
    """What the program has said of a pattern, or None where it hasn't within some seconds."""
    for _ in range(200):
        with open(f"{ROOM}/log", encoding="utf-8", errors="replace") as it:
            if found := re.search(pattern, it.read()):
                return found
        time.sleep(0.05)
    return None


def told():
    """How many inputs reached the program."""
    if KIND == "lcd4linux":
        return counted(f"{ROOM}/log")
    with open(f"{ROOM}/out", encoding="utf-8") as it:
        return it.read().count("\n")


def look(kind):
    """A viewer's picture in the end, how the program ended, how many inputs reached it, and what it wrote of them."""
    port = free_port()
    program = start(kind, port)
    try:
        if KIND == "nsfb":  # which takes the first port that is free
            found = said(r"listening on port (\d+)|Autoprobing selected TCP port (\d+)")
            if not found:
                raise OSError("it says no port")
            port = int(found[1] or found[2])
        viewer = Viewer(port)
        viewer.watch(1)
        viewer.tell(*KEYS, *MOVES)
        await_told(viewer, told)
        # the first of the four buttons that lcd4linux paints; what nsfb_events draws for, and what ends it
        for one in [(1, 60, 90), (0, 60, 90)] if KIND == "lcd4linux" else [(ord("b"), 1), (ord("b"), 0), (ord("q"), 1), (ord("q"), 0)]:
            viewer.tell(one)
            viewer.watch(0.7)
            await_told(viewer, told)
        viewer.socket.close()
        if KIND == "lcd4linux":
            program.send_signal(signal.SIGTERM)
        code = program.wait(10)
        with open(f"{ROOM}/out", encoding="utf-8") as it:
            return viewer, code, told(), it.read() if KIND == "nsfb" else None
    finally:
        program.kill()
        program.wait()


def refuses():
    """A program that wants a password is told, and nobody gets in."""
    port = free_port()
    program = start("ours", port, password=True)
    try:
        if not said("authPasswdData is set"):
            raise OSError("it isn't told that there are no passwords")
        with socket.socket() as it:
            if it.connect_ex(("127.0.0.1", port)) == 0:
                raise OSError("it is served without its password")
    finally:
        program.kill()
        program.wait()


def main():
    build = build_nsfb if KIND == "nsfb" else build_lcd4linux
    path = f"{SOURCE}/src/surface/vnc.c" if KIND == "nsfb" else f"{SOURCE}/drv_vnc.c"
    changed(path, f"{ROOM}/ours.c")
    shutil.copy(path, f"{ROOM}/real.c")
    if not build("ours", layer(PREFIX, ROOM)):
        raise OSError("it does not compile")
    ours, code, count, lines = look("ours")
    print(f"{ours.width} by {ours.height}, {ours.updates} updates, {count} of {ours.sent} inputs, it ends with {code}")
    if count != ours.sent or code != 0:
        raise OSError("that isn't as it should be")
    if KIND == "lcd4linux":
        refuses()
    real_flags = flags_of_real()
    if not real_flags or not build("real", real_flags):
        print("left out: LibVNCServer, which is not installed")
        return
    real, _, of_real, lines_of_real = look("real")
    differ = differing(ours, real)
    print(f"LibVNCServer: {real.width} by {real.height}, {of_real} of {real.sent} inputs; {differ or 'no'} places differ")
    if (ours.width, ours.height, ours.name, count, lines) != (real.width, real.height, real.name, of_real, lines_of_real) or differ:
        raise OSError("that differs")


says_what_is_wrong(main)
