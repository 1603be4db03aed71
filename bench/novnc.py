#!/usr/bin/env python3
"""novnc.py PROGRAM [--tls]: two pages of noVNC in Chromium, with no helper between, and two viewers of TigerVNC at `vncdemo serve --one-thread
--web` at once. It wants Debian's chromium, novnc, python3-websockets, tigervnc-viewer, xvfb, x11-utils
and imagemagick, and with --tls nginx and openssl.

A pointer that is pressed in the first page paints dots, and a key rings. What both pages and both windows show, and what the Python client
`websockets` reads, is compared place by place with what a viewer over TCP is sent in Raw. With --tls the pages come by nginx, which takes TLS
away in front. The status is 1 where something is not as it should be."""
import argparse
import asyncio
import base64
import json
import os
import socket
import ssl
import struct
import subprocess
import sys
import tempfile
import time
import urllib.request

import websockets

WIDTH, HEIGHT = 96, 64
DOTS = [(5, 7), (50, 40), (90, 60), (0, 0)]
ASK = struct.pack(">BxHi", 2, 1, 0) + struct.pack(">BBHHHH", 3, 0, 0, 0, WIDTH, HEIGHT)  # RFC 6143, 7.5.2 and 7.5.3
PAGES, DEBUG, DISPLAY = 8123, 9333, ":77"
DESK = "desk.example:8443"
PIXELS = """(() => { const c = document.querySelector('#screen canvas'); if (!c || c.width != WIDTH) return '';
const d = c.getContext('2d').getImageData(0, 0, c.width, c.height).data; let s = '';
for (let k = 0; k < d.length; k += 4) s += String.fromCharCode(d[k], d[k + 1], d[k + 2]); return btoa(s); })()""".replace("WIDTH", str(WIDTH))
PLACE = """(() => { const r = document.querySelector('#screen canvas').getBoundingClientRect();
return JSON.stringify([r.left, r.top, r.width, r.height]); })()"""
NGINX = """daemon off; pid ROOM/pid; error_log ROOM/errors; events {}
http { access_log off; types { text/html html; text/javascript js; text/css css; image/svg+xml svg; }
server { listen 127.0.0.1:8443 ssl; ssl_certificate ROOM/cert.pem; ssl_certificate_key ROOM/key.pem; root /usr/share/novnc;
location /websockify { proxy_pass http://127.0.0.1:WEB; proxy_http_version 1.1; proxy_set_header Upgrade $http_upgrade;
proxy_set_header Connection upgrade; proxy_set_header Host $http_host; proxy_read_timeout 1d; } } }"""


class Reading:
    """A viewer that reads by `more`, which gives further bytes, and says what it says by `say`."""

    def __init__(self, more, say):
        self.more, self.say, self.held = more, say, bytearray()

    async def take(self, count):
        while len(self.held) < count:
            piece = await self.more()
            if not piece:
                raise OSError("closed")
            self.held += piece
        taken = bytes(self.held[:count])
        del self.held[:count]
        return taken

    async def open(self):
        await self.take(12)
        await self.say(b"RFB 003.008\n")
        await self.take(2)
        await self.say(b"\x01")
        await self.take(4)
        await self.say(b"\x01")
        head = await self.take(24)
        await self.take(struct.unpack(">I", head[20:])[0])

    async def picture(self):
        """The whole screen in Raw, three bytes a place."""
        await self.say(ASK)
        while await self.take(1) == b"\x02":
            pass
        (count,) = struct.unpack(">xH", await self.take(3))
        picture = bytearray(3 * WIDTH * HEIGHT)
        for _ in range(count):
            left, top, width, height, _raw = struct.unpack(">HHHHi", await self.take(12))
            for y in range(top, top + height):
                row = await self.take(4 * width)
                for x in range(width):
                    at = 3 * (y * WIDTH + left + x)
                    picture[at : at + 3] = row[4 * x + 2], row[4 * x + 1], row[4 * x]
        return bytes(picture)


async def by_tcp(port):
    reader, writer = await asyncio.open_connection("127.0.0.1", port)

    async def say(data):
        writer.write(data)
        await writer.drain()

    viewer = Reading(lambda: reader.read(1 << 16), say)
    await viewer.open()
    return viewer


async def by_websockets(url, context):
    async with websockets.connect(url, subprotocols=["binary"], ssl=context) as stream:
        viewer = Reading(stream.recv, stream.send)
        await viewer.open()
        await (await stream.ping())
        return await viewer.picture()


class Page:
    """A page of the browser, by the browser's own protocol."""

    def __init__(self, stream):
        self.stream, self.calls = stream, 0

    async def call(self, method, **params):
        self.calls += 1
        await self.stream.send(json.dumps({"id": self.calls, "method": method, "params": params}))
        while True:
            answer = json.loads(await self.stream.recv())
            if answer.get("id") == self.calls:
                return answer["result"]

    async def value(self, expression):
        return (await self.call("Runtime.evaluate", expression=expression, returnByValue=True))["result"].get("value")

    async def goes_to(self, url):
        await self.call("Page.navigate", url=url)
        for _ in range(100):
            await asyncio.sleep(0.2)
            if await self.value(PIXELS):
                return
        raise OSError("the page shows no screen")

    async def shown(self):
        return base64.b64decode(await self.value(PIXELS))

    async def press(self, x, y):
        left, top, width, height = json.loads(await self.value(PLACE))
        for kind, down in (("mouseMoved", 0), ("mousePressed", 1), ("mouseReleased", 0)):
            at = {"x": left + (x + 0.5) * width / WIDTH, "y": top + (y + 0.5) * height / HEIGHT}
            await self.call("Input.dispatchMouseEvent", type=kind, button="left", buttons=down, clickCount=1, **at)
        await asyncio.sleep(0.2)

    async def type(self):
        for kind in ("keyDown", "keyUp"):
            await self.call("Input.dispatchKeyEvent", type=kind, key="a", code="KeyA", windowsVirtualKeyCode=65)


def new_page():
    asked = urllib.request.Request(f"http://127.0.0.1:{DEBUG}/json/new?about:blank", method="PUT")
    return json.load(urllib.request.urlopen(asked))["webSocketDebuggerUrl"]


def wait_for(port):
    for _ in range(100):
        try:
            socket.create_connection(("127.0.0.1", port)).close()
            return
        except OSError:
            time.sleep(0.1)


def windows():
    """What stands in the viewers' windows."""
    tree = subprocess.run(["xwininfo", "-display", DISPLAY, "-root", "-tree"], check=True, capture_output=True, text=True).stdout
    for name in [line.split()[0] for line in tree.splitlines() if '"demo - TigerVNC"' in line]:
        words = ["import", "-display", DISPLAY, "-window", name, "-depth", "8", "rgb:-"]
        yield subprocess.run(words, check=True, capture_output=True).stdout


async def judge(port, url, stream_url, context):
    wrong = []
    listener = await by_tcp(port)
    async with websockets.connect(new_page(), max_size=None) as one, websockets.connect(new_page(), max_size=None) as other:
        pages = [Page(one), Page(other)]
        for page in pages:
            await page.goes_to(url)
        for x, y in DOTS:
            await pages[0].press(x, y)
        await pages[0].type()
        if await asyncio.wait_for(listener.take(1), 5) != b"\x02":
            wrong.append("a key doesn't ring")
        await asyncio.sleep(1)
        wanted = await (await by_tcp(port)).picture()
        lit = [(k % WIDTH, k // WIDTH) for k in range(WIDTH * HEIGHT) if any(wanted[3 * k : 3 * k + 3])]
        if sorted(lit) != sorted(DOTS):
            wrong.append(f"the dots are at {lit}")
        wrong += [f"page {k + 1} shows something else" for k in range(2) if await pages[k].shown() != wanted]
    if list(windows()) != [wanted, wanted]:
        wrong.append("a window shows something else")
    if await by_websockets(stream_url, context) != wanted:
        wrong.append("the Python client reads something else")
    return wrong


def front(tls, web, room, started):
    """Starts what gives the pages. Returns where they are, and where the stream is."""
    if not tls:
        started(sys.executable, "-m", "http.server", str(PAGES), "--bind", "127.0.0.1", "-d", "/usr/share/novnc")
        wait_for(PAGES)
        return f"http://127.0.0.1:{PAGES}/vnc_lite.html?host=127.0.0.1&port={web}", f"ws://127.0.0.1:{web}/"
    words = "req -x509 -newkey rsa:2048 -nodes -days 2 -subj /CN=desk.example -addext subjectAltName=DNS:desk.example".split()
    subprocess.run(["openssl", *words, "-keyout", f"{room}/key.pem", "-out", f"{room}/cert.pem"], check=True, capture_output=True)
    with open(f"{room}/nginx.conf", "w") as out:
        out.write(NGINX.replace("ROOM", room).replace("WEB", str(web)))
    started("nginx", "-c", f"{room}/nginx.conf", "-e", f"{room}/errors")
    wait_for(8443)
    host, _, port = DESK.partition(":")
    return f"https://{DESK}/vnc_lite.html?host={host}&port={port}&encrypt=1", f"wss://{DESK}/websockify"


def main():
    words = argparse.ArgumentParser(description=__doc__)
    words.add_argument("program")
    words.add_argument("--tls", action="store_true")
    chosen = words.parse_args()
    running = []

    def started(*words, **kinds):
        running.append(subprocess.Popen(words, stdout=subprocess.DEVNULL, stderr=subprocess.DEVNULL, **kinds))

    names = ["--host", DESK, "--origin", f"https://{DESK}"] if chosen.tls else ["--origin", f"http://127.0.0.1:{PAGES}"]
    words = ["serve", "--one-thread", "--forever", "--end-with-input", "--viewers", "20", "--port", "0", "--web", "0"]
    words += ["--width", str(WIDTH), "--height", str(HEIGHT), *names]
    server = subprocess.Popen([chosen.program, *words], stdin=subprocess.PIPE, stderr=subprocess.PIPE, text=True)
    port, web = (int(it.split(":")[1].strip(",")) for it in server.stderr.readline().split() if it.startswith("127.0.0.1:"))
    with tempfile.TemporaryDirectory(ignore_cleanup_errors=True) as room:
        try:
            url, stream_url = front(chosen.tls, web, room, started)
            words = ["--headless=new", "--no-sandbox", "--disable-gpu", "--ignore-certificate-errors", "--remote-allow-origins=*"]
            words += [f"--remote-debugging-port={DEBUG}", "--host-resolver-rules=MAP desk.example 127.0.0.1", f"--user-data-dir={room}/browser"]
            started("chromium", *words, "about:blank")
            started("Xvfb", DISPLAY, "-screen", "0", "640x480x24")
            wait_for(DEBUG)
            time.sleep(1)
            for k in range(2):
                words = ["-Shared=1", "-geometry", f"{WIDTH}x{HEIGHT}+{10 + 200 * k}+10", f"127.0.0.1::{port}"]
                started("xtigervncviewer", *words, env={**os.environ, "DISPLAY": DISPLAY})
            context = ssl._create_unverified_context() if chosen.tls else None
            by_name = socket.getaddrinfo
            socket.getaddrinfo = lambda host, *more, **kinds: by_name("127.0.0.1" if host == "desk.example" else host, *more, **kinds)
            wrong = asyncio.run(judge(port, url, stream_url, context))
        finally:
            for it in reversed(running):
                it.terminate()
                it.wait()
    server.stdin.close()
    if server.wait(10):
        wrong.append("the status")
    print("\n".join(f"WRONG: {it}" for it in wrong) or "all as it should be")
    return bool(wrong)


if __name__ == "__main__":
    sys.exit(main())
