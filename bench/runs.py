"""One run of a server under a load, and what the tables have in common.

A server is a command line without a shell, in which {port}, {width}, {height}
and {viewers} are filled in. Each run gets a server of its own, on 127.0.0.1."""
import argparse
import json
import os
import platform
import re
import resource
import shlex
import signal
import statistics
import subprocess
import tempfile
import time

HERE = os.path.dirname(os.path.abspath(__file__))
LOAD = os.path.join(HERE, "build", "load")
LVS = os.path.join(HERE, "build", "lvs_server")
VGA, HD = (640, 480), (1920, 1080)
TEXT = ["--prepaint", "60000"]
last_port = 5940

# 1,000 viewers want more handles than some systems give. All servers get the same number on every machine, since LibVNCServer
# looks at each possible handle at an opening, and takes viewers for half of them.
HANDLES = 4096
most_handles = resource.getrlimit(resource.RLIMIT_NOFILE)[1]
resource.setrlimit(resource.RLIMIT_NOFILE, (HANDLES if most_handles < 0 else min(HANDLES, most_handles), most_handles))


def ours(program, *more):
    """the command line of this project's server, with more options behind"""
    words = [os.path.abspath(program), "serve", "--port {port} --width {width} --height {height} --viewers {viewers}", *more]
    return " ".join(words)


def lvs(mode):
    """the command line of LibVNCServer's, in its mode thread or loop"""
    return f"{LVS} --port {{port}} --width {{width}} --height {{height}} --mode {mode}"


def listening(port):
    want = "%04X" % port
    for name in ("/proc/net/tcp", "/proc/net/tcp6"):
        try:
            with open(name) as f:
                for line in f.readlines()[1:]:
                    words = line.split()
                    if words[3] == "0A" and words[1].endswith(":" + want):
                        return True
        except OSError:
            pass
    return False


def cpu_times():
    """ticks of all processors: in all, busy, stolen by the host"""
    with open("/proc/stat") as f:
        v = [int(x) for x in f.readline().split()[1:9]]
    return sum(v), sum(v) - v[3] - v[4], v[7]


def wait_for_quiet(seconds=5, most=0.08):
    """until less than `most` of the processors is busy, for so many seconds at most"""
    end = time.time() + seconds
    while time.time() < end:
        all0, busy0, _ = cpu_times()
        time.sleep(0.4)
        all1, busy1, _ = cpu_times()
        if (busy1 - busy0) / max(1, all1 - all0) < most:
            return


def start(command, size, viewers, before=(), wait=15):
    """a server that listens, its port and its output"""
    global last_port
    last_port = 5940 + (last_port - 5939) % 40
    while listening(last_port):
        last_port += 1
    words = shlex.split(command.format(port=last_port, width=size[0], height=size[1], viewers=viewers))
    log = tempfile.TemporaryFile()
    server = subprocess.Popen([*before, *words], stdin=subprocess.DEVNULL, stdout=log, stderr=log, start_new_session=True)
    end = time.time() + wait
    while not listening(last_port) and server.poll() is None and time.time() < end:
        time.sleep(0.01)
    return server, last_port, log


def stop(server, seconds=3):
    if server.poll() is None:
        server.send_signal(signal.SIGTERM)
        try:
            server.wait(seconds)
        except subprocess.TimeoutExpired:
            server.kill()
            server.wait()


def under_load(command, size, viewers, args, seconds=1):
    """what the load found in one run, as a dict; it has `ok`"""
    wait_for_quiet()
    server, port, log = start(command, size, viewers)
    try:
        time.sleep(0.15)
        if server.poll() is not None or not listening(port):
            log.seek(0)
            said = " ".join(log.read()[-200:].decode("utf-8", "replace").split())
            return {"ok": False, "first_failure": "no server: " + said}
        all0, _, stolen0 = cpu_times()
        words = [LOAD, args[0], "--port", port, "--pid", server.pid, "--seconds", seconds, *args[1:]]
        words = [str(word) for word in words]
        done = subprocess.run(words, stdout=subprocess.PIPE, stderr=subprocess.DEVNULL, timeout=60 + 10 * seconds)
        all1, _, stolen1 = cpu_times()
        result = json.loads(done.stdout.decode().strip().splitlines()[-1])
        result["stolen"] = (stolen1 - stolen0) / max(1, all1 - all0)
        return result
    except (subprocess.TimeoutExpired, ValueError, IndexError):
        return {"ok": False, "first_failure": "the load gave nothing"}
    finally:
        stop(server)
        log.close()


def in_turns(servers, rounds, size, viewers, args):
    """the runs of each server that gave numbers, and what is said of the others"""
    runs, failed = {name: [] for name, _ in servers}, []
    for _ in range(rounds):
        for name, command in servers:
            result = under_load(command, size, viewers, args)
            if result.get("ok"):
                runs[name].append(result)
            else:
                failed.append(f"{name}: {result.get('first_failure')}")
    return runs, failed


C_LIBRARY = re.compile(r"/(lib(c|m|pthread)|ld-linux[^/]*)[-.][^/]*$")


def own_instructions(file):
    """what callgrind counted outside of the C library"""
    names, place, of_a_call, own = {}, "", False, 0
    with open(file) as f:
        for line in f:
            found = re.match(r"(c?ob)=\((\d+)\)(?: (.*))?", line)
            if found:
                kind, key, name = found.groups()
                names.setdefault(key, name)
                place = names[key] if kind == "ob" else place
            elif line.startswith("calls="):
                of_a_call = True                 # the next line counts what was called
            elif line[0] in "+-*0123456789":
                if not of_a_call and not C_LIBRARY.search(place):
                    own += int(line.split()[1])
                of_a_call = False
    return own


def instructions(command, size, viewers, args):
    """how many instructions valgrind counts in the server, in user mode, until it ends: all, and those outside of the C library"""
    with tempfile.TemporaryDirectory() as room:
        before = ["valgrind", "--tool=callgrind", f"--callgrind-out-file={room}/out", "--fair-sched=yes"]
        server, port, log = start(command, size, viewers, before, wait=60)
        try:
            done = subprocess.run([LOAD, *map(str, args), "--port", str(port)], stdout=subprocess.PIPE, timeout=600)
            result = json.loads(done.stdout.decode().strip().splitlines()[-1])
            time.sleep(0.3)
        except (subprocess.TimeoutExpired, ValueError, IndexError):
            return None
        finally:
            stop(server, 30)
        log.seek(0)
        found = re.search(r"Collected : (\d+)", log.read().decode("utf-8", "replace"))
        return (int(found.group(1)), own_instructions(f"{room}/out")) if found and result.get("ok") else None


def options(doc):
    """what a table's command line says"""
    p = argparse.ArgumentParser(description=doc, formatter_class=argparse.RawDescriptionHelpFormatter)
    p.add_argument("program")
    p.add_argument("--rounds", type=int, default=3)
    p.add_argument("--only", default="")
    p.add_argument("--json")
    return p.parse_args()


def ended(opts, kept, failed):
    """what every table ends with: the runs that gave nothing, and each run's numbers where they are wanted; the status"""
    for line in failed:
        print(f"FAILED {line}")
    if opts.json:
        with open(opts.json, "w") as f:
            json.dump(kept, f, indent=1)
    return 1 if failed else 0


def middle(values):
    return statistics.median(values) if values else None


def spread(values):
    """how far the rounds are apart, as a part of their median"""
    m = middle(values)
    return (max(values) - min(values)) / abs(m) if m else 0


def number(v, digits=3):
    """so many digits that count, with no power of ten"""
    if v is None:
        return "-"
    if v == 0:
        return "0"
    places = max(0, digits - 1 - int(f"{abs(v):e}".split("e")[1]))
    return f"{v:,.{places}f}"


def machine():
    model = ""
    with open("/proc/cpuinfo") as f:
        for line in f:
            if line.startswith("model name"):
                model = line.split(":", 1)[1].strip()
                break
    version = subprocess.run(["pkg-config", "--modversion", "libvncserver"], stdout=subprocess.PIPE, check=False)
    return (f"{os.cpu_count()} processors ({model}), Linux {platform.release()}, LibVNCServer "
            f"{version.stdout.decode().strip()}, {time.strftime('%Y-%m-%d')}")
