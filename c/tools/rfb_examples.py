#!/usr/bin/env python3
"""rfb_examples.py SOURCE PREFIX ROOM [COMMAND ..]: LibVNCServer's example programs over rfb_compat.h.

SOURCE is the folder of LibVNCServer's source, and vnc_server is installed below PREFIX. Each example is compiled with its line
`#include <rfb/rfb.h>` changed to `#include "rfb_compat.h"` and nothing else, and with LibVNCServer too, where that is installed. A viewer
looks at each, with the same keys and pointer. The pictures are compared place by place, and so is how many inputs the program's hooks
were told (rfb_count.h). A COMMAND, valgrind's, stands before ours alone; then nothing is compared, and an error that it finds counts. A line
for each; the status is not 0 where one isn't as it should be."""
import glob
import os
import re
import shutil
import subprocess
import sys

from rfb_viewer import HERE, Viewer, await_told, changed, compiles, counted, differing, flags_of_real, free_port, layer

SOURCE, PREFIX, ROOM, COMMAND = sys.argv[1], sys.argv[2], sys.argv[3], sys.argv[4:]
UP, DOWN, ENTER, F11, F12 = 0xFF52, 0xFF54, 0xFF0D, 0xFFC8, 0xFFC9
# reads no font but the one of default8x16.h, as console fonts are seldom there
FONTS = """#define _GNU_SOURCE
#include <dlfcn.h>
#include <stdio.h>
#include <string.h>
FILE *fopen(const char *name, const char *mode)
{
    FILE *(*real)(const char *, const char *);
    *(void **)&real = dlsym(RTLD_NEXT, "fopen");
    return real(strstr(name, "/consolefonts/") ? "%s/font" : name, mode);
}
FILE *fopen64(const char *name, const char *mode) { return fopen(name, mode); }
"""


def prepare():
    for folder in ("ours", "real", "source", "rfb"):
        os.makedirs(f"{ROOM}/{folder}", exist_ok=True)
    shutil.copy(f"{SOURCE}/rfb/default8x16.h", f"{ROOM}/rfb")
    for path in glob.glob(f"{SOURCE}/examples/*.c"):
        changed(path, f"{ROOM}/source/{os.path.basename(path)}")
    with open(f"{ROOM}/rfb/rfbconfig.h", "w", encoding="utf-8") as out:
        out.write("#define LIBVNCSERVER_HAVE_SYS_SOCKET_H 1\n")
    shutil.copy(f"{SOURCE}/examples/radon.h", f"{ROOM}/source")
    with open(f"{ROOM}/rfb/default8x16.h", encoding="utf-8") as it:
        glyphs = bytes(int(it, 16) for it in re.findall(r"0x[0-9a-f]{2}", it.read())[:4096])
    with open(f"{ROOM}/font", "wb") as out:
        out.write(glyphs)
    with open(f"{ROOM}/fonts.c", "w", encoding="utf-8") as out:
        out.write(FONTS % ROOM)
    if not compiles("-shared", "-fPIC", "-o", f"{ROOM}/fonts.so", f"{ROOM}/fonts.c", "-ldl"):
        raise SystemExit("rfb_examples.py: no shared object")


def build(name, source, flags):
    """The example over rfb_compat.h; and over LibVNCServer, where it is installed: whether that is there too."""
    counts = ["-w", "-include", f"{HERE}/tools/rfb_count.h"]
    if not compiles(*flags, *counts, "-o", f"{ROOM}/ours/{name}", f"{ROOM}/source/{source}.c", "-idirafter", ROOM, *layer(PREFIX, ROOM)):
        raise OSError("does not compile")
    real = [] if COMMAND else flags_of_real()
    if not real:
        return False
    return compiles(*flags, "-DRFB_COUNT_REAL", *counts, "-o", f"{ROOM}/real/{name}", f"{SOURCE}/examples/{source}.c", "-idirafter", ROOM, *real)


def image(kind):
    """A picture for pnmshow, 62 by 40."""
    colours = bytes(it for y in range(40) for x in range(62) for it in (4 * x, 6 * y, 255 - 4 * x))
    data = {"P6": colours, "P5": colours[::3], "P4": bytes((x * 5 + y * 7) & 255 for y in range(40) for x in range(8))}[kind]
    with open(f"{ROOM}/{kind}", "wb") as out:
        out.write(kind.encode() + b"\n# a comment\n62 40\n" + (b"" if kind == "P4" else b"255\n") + data)
    return f"{ROOM}/{kind}"


def sketch(viewer):
    for k in range(20):
        viewer.point(1, 50 + 10 * k, 200 + 7 * k)
    viewer.point(0, 250, 340)
    viewer.point(4, 400, 100)
    viewer.point(0, 400, 100)
    viewer.watch(0.4)
    viewer.key(*b"Abc.")


def resize(viewer):
    sketch(viewer)
    viewer.key(UP)
    viewer.watch(0.5)


def vncev(viewer):
    viewer.key(*b"xyz")
    viewer.point(1, 7, 8)
    viewer.point(0, 7, 8)


def fontsel(viewer):
    viewer.watch(9.5)
    viewer.key(DOWN, DOWN, DOWN)


def zippy(viewer):
    viewer.key(*b"pbcp")
    viewer.key(ord("c"))
    viewer.point(1, 5, 6)
    viewer.point(0, 5, 6)


def cursors(viewer):
    for k in range(8):
        viewer.point(1, 100 + 20 * k, 150 + 10 * k)
        viewer.point(0, 100 + 20 * k, 150 + 10 * k)
        viewer.watch(0.1)


def rotate(viewer):
    viewer.key(*b"rfRFr")


# name, source, flags, argument, what is done, the last key, whether that ends the program, and how many places may differ from LibVNCServer's
RUNS = [
    ("simple", "simple", [], None, None, None, False, 0),
    ("simple15", "simple15", [], None, None, None, False, 0),
    ("colourmaptest", "colourmaptest", [], None, None, None, False, 0),
    ("pnmshow", "pnmshow", [], "P6", None, ord("q"), False, 0),
    ("pnmshow", "pnmshow", [], "P5", None, ord("q"), False, 0),
    ("pnmshow", "pnmshow", [], "P4", None, ord("q"), False, 0),
    ("pnmshow24", "pnmshow24", [], "P6", None, ord("q"), False, 0),
    ("example", "example", [], None, sketch, F12, True, 0),
    ("example_sizes", "example", [], None, resize, F12, True, 0),
    ("example_own_loop", "example", ["-DUSE_OWN_LOOP"], None, sketch, F12, True, 0),
    ("example_background", "example", ["-DBACKGROUND_LOOP_TEST"], None, sketch, None, False, 0),
    ("zippy", "zippy", [], None, zippy, ord("q"), True, 0),
    ("vncev", "vncev", [], None, vncev, None, False, 0),
    ("camera", "camera", [], None, lambda viewer: viewer.watch(1), None, False, 1280),  # a line that moves: two rows of 640
    ("fontsel", "fontsel", [], None, fontsel, ENTER, True, 4000),  # its box has no buttons here
    ("cursors", "cursors", [], None, cursors, None, False, 0),
    ("rotate", "rotate", [], "P6", rotate, ord("q"), False, 0),
]
OWN_HOOKS = ["fontsel"]  # whose keys go to the hooks of its box, which LibVNCServer has


# what valgrind finds of these programs themselves
LEFT_OUT = {
    "simple": "it never writes its framebuffer",
    "pnmshow P5": "it leaves the end of its framebuffer unwritten where it pads its rows",
    "cursors": "it never frees its cursors' colours",
    "rotate P6": "it never releases its iterators",
    "pnmshow P4": "it writes up to 7 bytes behind its framebuffer",
    "example_background": "it is ended while its thread runs, whose memory is then held still",
}


def run(name, command, argument, does, last, ends):
    """What a viewer saw: the viewer, and what was not as it should be."""
    port = free_port()
    arguments = [*command, *([image(argument)] if argument else []), "-rfbport", str(port), "-listen", "127.0.0.1"]
    environment = dict(os.environ, LD_PRELOAD=f"{ROOM}/fonts.so")
    with open(f"{ROOM}/log", "wb") as log, subprocess.Popen(arguments, stdout=subprocess.DEVNULL, stderr=log, env=environment) as program:
        try:
            viewer = Viewer(port)
            viewer.watch(0.7)
            if does:
                does(viewer)
                viewer.watch(0.5)
                if name not in OWN_HOOKS:
                    await_told(viewer, lambda: counted(f"{ROOM}/log"))
            if last:
                viewer.tell((last, 1))
                if viewer.watch(3):
                    return viewer, "the viewer is not let go"
            viewer.socket.close()
            if not ends:
                return viewer, None
            return viewer, None if program.wait(20) == 0 else f"it ends with {program.returncode}"
        finally:
            program.terminate()


def found():
    """What valgrind said of the last program."""
    with open(f"{ROOM}/log", encoding="utf-8", errors="replace") as it:
        errors = re.findall(r"==\d+== ((?:Invalid|Conditional|Use of|Syscall|Mismatched|Source and)[^\n]*|[^\n]*(?:definitely|possibly) lost[^\n]*)", it.read())
    return errors[0] if errors else None


def look(name, source, flags, argument, does, last, ends, most):
    shown = f"{name} {argument}" if argument else name
    if COMMAND and shown in LEFT_OUT:
        return f"left out: {LEFT_OUT[shown]}"
    has_real = build(name, source, flags)
    ours, wrong = run(name, [*COMMAND, f"{ROOM}/ours/{name}"], argument, does, last, ends)
    if wrong or found():
        raise OSError(wrong or found())
    told = counted(f"{ROOM}/log")
    said = f"{ours.width} by {ours.height}, {ours.updates} updates, {ours.copies} copies, {told} of {ours.sent} inputs"
    if told != ours.sent and not COMMAND and name not in OWN_HOOKS:
        raise OSError(said)
    if not has_real:
        return said
    real, _ = run(name, [f"{ROOM}/real/{name}"], argument, does, last, ends)
    if told != counted(f"{ROOM}/log"):
        raise OSError(f"{said}; LibVNCServer told {counted(f'{ROOM}/log')}")
    if (ours.width, ours.height, ours.name) != (real.width, real.height, real.name):
        raise OSError(f"{said}; LibVNCServer's is {real.width} by {real.height}")
    differ = differing(ours, real)
    if differ > most:
        raise OSError(f"{said}; {differ} places differ from LibVNCServer's")
    return f"{said}; {differ or 'no'} places differ from LibVNCServer's"


def words():
    """LibVNCServer's own test of what it takes out of the arguments."""
    changed(f"{SOURCE}/test/cargstest.c", f"{ROOM}/source/cargstest.c")
    if not compiles("-w", "-o", f"{ROOM}/ours/cargstest", f"{ROOM}/source/cargstest.c", *layer(PREFIX, ROOM)):
        raise OSError("does not compile")
    done = subprocess.run([f"{ROOM}/ours/cargstest"], check=False, capture_output=True, text=True)
    if done.returncode:
        raise OSError(done.stderr)
    return "its checks hold"


def main():
    prepare()
    failed = 0
    runs = [(f"{name} {argument}" if argument else name, look, (name, source, flags, argument, *rest)) for name, source, flags, argument, *rest in RUNS]
    for shown, how, what in [("cargstest", words, ()), *runs]:
        try:
            print(f"{shown}: {how(*what)}", flush=True)
        except (OSError, EOFError, subprocess.TimeoutExpired) as error:
            failed += 1
            print(f"{shown}: WRONG: {error or 'the server closed the connection'}", flush=True)
    sys.exit(failed != 0)


main()
