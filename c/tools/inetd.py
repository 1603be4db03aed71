#!/usr/bin/env python3
"""Accepts viewers as inetd does: inetd.py PORT COUNT PROGRAM ARGUMENT..

It listens on a port of 127.0.0.1, and starts the program for each of so many connections, which is its standard input and output. Its
status is 0 where each of them ended with 0."""
import socket
import subprocess
import sys


def main():
    port, count, *program = sys.argv[1:]
    with socket.create_server(("127.0.0.1", int(port)), backlog=8) as listener:
        started = []
        for _ in range(int(count)):
            connection, _ = listener.accept()
            with connection:
                started.append(subprocess.Popen(program, stdin=connection, stdout=connection))
    sys.exit(any([it.wait(60) for it in started]))


main()
