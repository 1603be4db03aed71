#!/usr/bin/env python3
"""Three viewers come at a UNIX path, and wait to be let in: admit.py PROGRAM ARGUMENT..

The program is c/examples/admit.c's, behind what runs it. It prints "admit ok", with status 0, where a viewer is sent nothing before it is let
in and the version then, one that isn't is closed, one that has gone harms nobody, and the program ends with its input, and well."""
import os
import socket
import subprocess
import sys
import tempfile


def comes(path, program):
    viewer = socket.socket(socket.AF_UNIX)
    while viewer.connect_ex(path):
        if program.poll() is not None:
            sys.exit(f"the program ended with {program.returncode}")
    if program.stdout.readline() != "one waits\n":
        sys.exit("nobody was told of")
    viewer.settimeout(0.2)
    try:
        sys.exit(f"one that waits is sent {viewer.recv(1)}")
    except socket.timeout:  # (TimeoutError is another before Python 3.10)
        viewer.settimeout(20)
        return viewer


def main():
    with tempfile.TemporaryDirectory() as folder:
        path = os.path.join(folder, "desk")
        with subprocess.Popen([*sys.argv[1:], path], stdin=subprocess.PIPE, stdout=subprocess.PIPE, text=True) as program:
            first, second, third = (comes(path, program) for _ in range(3))
            second.close()
            for word in ("no", "yes", "yes"):
                program.stdin.write(word + "\n")
                program.stdin.flush()
            if first.recv(1):
                sys.exit("one is served that isn't let in")
            if third.recv(12, socket.MSG_WAITALL) != b"RFB 003.008\n":
                sys.exit("one that is let in is not served")
            program.stdin.close()
            if program.wait(20) or third.recv(1):
                sys.exit("it doesn't end well")
        if os.path.exists(path):
            sys.exit("its path stays")
    print("admit ok")


main()
