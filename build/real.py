#!/usr/bin/env python3
"""Runs the built program over real files, streams and sockets: what no proof reaches, since it begins at the system's calls.

Usage: build/real.py [--program PATH] [--only PART..]        (`.ci/run` calls it behind `rt ci`, which has built the program)

What is tried: standard streams that the caller closed; a file that is removed, moved, replaced or cut under a server; processes
that are stopped and continued; peers that send a byte now and then, or never read; a full disk; a killed server; names that are no
regular files; and the commands of README.md and docs/NODE.md, as they stand there. It takes some seventy seconds, since a slow
peer is hung up behind sixty. It writes what was otherwise than it should be, a line each, and ends with 1 if something was.
"""
import argparse
import os
import re
import resource
import signal
import socket
import subprocess
import sys
import tempfile
import threading
import time
import traceback

TOP = os.path.dirname(os.path.dirname(os.path.abspath(__file__)))
sys.path.insert(0, os.path.join(TOP, "bench"))
import client as peer

# seconds that a command may take
PATIENCE = 100
# the first ports below those that the system gives to whoever connects
PORTS = iter(range(21000, 32000))
ANN = b'add #10 user #1 "Ann Lee" sAMAccountName="ann"\n'
SHOWN = '  #10 user parent=#1 name="Ann Lee" sAMAccountName="ann"\n'
found = []
tried = 0


def check(what, is_so, told=""):
    global tried
    tried += 1
    if not is_so:
        found.append(f"{what}: {told}")
    return is_so


def same(what, told, due):
    return check(what, told == due, f"{told}, not {due}")


def read(path):
    with open(path, "rb") as file:
        return file.read()


def free_port():
    for port in PORTS:
        with socket.socket() as probe:
            try:
                probe.bind(("127.0.0.1", port))
                return port
            except OSError:
                continue
    raise RuntimeError("no port is free")


def is_listening(port):
    with open("/proc/net/tcp", encoding="ascii") as file:
        return any(line.split()[1].endswith(f":{port:04X}") and line.split()[3] == "0A" for line in file if ":" in line[:8])


class Place:
    """The program, run in a folder of its own."""

    def __init__(self, program, top, name):
        self.program, self.folder = program, os.path.join(top, name)
        os.mkdir(self.folder)

    def path(self, name):
        return f"{self.folder}/{name}.adr"

    def run(self, *words, given=b"", shell="", **how):
        """The status and the output of a command. `shell` is what a shell does to its streams."""
        command = ["bash", "-c", f'exec "$@" {shell}', "bash", self.program, *words]
        done = subprocess.run(command, cwd=self.folder, input=given, stdout=subprocess.PIPE, stderr=subprocess.PIPE, timeout=PATIENCE, **how)
        if "2>&-" not in shell:
            same("nothing goes to standard error", done.stderr, b"")
        return done.returncode, done.stdout.decode()

    def expect(self, words, status, written, given=b"", shell=""):
        return same(f"{' '.join(words)} {shell}".rstrip(), self.run(*words, given=given, shell=shell), (status, written))

    def create(self, *names):
        for name in names:
            self.expect(["create", name], 0, f"create {name}: ok\n")

    def start(self, *words, shell="", **how):
        command = ["bash", "-c", f'exec "$@" {shell}', "bash", self.program, *words]
        return subprocess.Popen(command, cwd=self.folder, stdin=subprocess.PIPE, stdout=subprocess.PIPE, stderr=subprocess.PIPE, **how)

    def serve(self, name, count, shell="", **how):
        """A server as a process, and its port, once it listens."""
        port = free_port()
        server = self.start("serve", name, str(port), str(count), shell=shell, **how)
        until = time.monotonic() + PATIENCE
        while not is_listening(port) and server.poll() is None and time.monotonic() < until:
            time.sleep(0.002)
        return server, port


def ended(process):
    out, _ = process.communicate(timeout=PATIENCE)
    return process.returncode, out.decode()


def closed_streams(place):
    """Each word with each stream closed: what reads a closed one ends with 4, what writes one with 5, and each file stays whole."""
    place.create("Source")
    server, port = place.serve("Source", 1)
    place.expect(["send", str(port)], 0, "add: ok usn=1\n", given=ANN)
    same("the server's line", ended(server), (0, "connection 1: 1 end\n"))
    status, _ = place.run("backup", "Source", shell="> image")
    same("a backup into a file", status, 0)
    image = read(f"{place.folder}/image")
    for number, shell in enumerate(("<&-", ">&-", "2>&-", "<&- >&- 2>&-")):
        is_in, is_out = "<" in shell, ">&- " in f"{shell} ".replace("2>&-", "")
        reads = 4 if is_in else 5 if is_out else 0
        writes = 5 if is_out else 0
        name = f"N{number}"
        closed_alone(place, shell, name, image, reads, writes, is_out)
        closed_online(place, shell, f"S{number}", reads, writes, is_out)


def said(text, is_out):
    return "" if is_out else text


def closed_alone(place, shell, name, image, reads, writes, is_out):
    """The words that use no network. `reads` is the status of one that reads standard input, `writes` of one that doesn't."""
    schedule = b"controller A #a0 #a1\n"
    place.expect(["replay"], reads, said("controller A: ok\n", is_out or reads), given=schedule, shell=shell)
    status, _ = place.run("exercise", "1", shell=shell)
    same(f"exercise {shell}", status, writes)
    place.expect(["create", name], writes, said(f"create {name}: ok\n", is_out), shell=shell)
    place.expect(["show", name], 0, f"show {name}: 0\n")
    # What can't read its image makes nothing.
    for word, words in (("install", []), ("restore", ["#b0"])):
        made = f"{name}{word}"
        place.expect([word, made, *words], reads, said(f"{word} {made}: ok\n", is_out or reads), given=image, shell=shell)
        place.expect(["show", made], *((10, "damaged 0\n") if reads == 4 else (0, f"show {made}: 1\n{SHOWN}")))
    before = read(place.path("Source"))
    for word, text in (("show", f"show Source: 1\n{SHOWN}"), ("export", None), ("backup", None)):
        status, written = place.run(word, "Source", shell=f"{shell} > written" if not is_out else shell)
        same(f"{word} {shell}", (status, written), (writes, ""))
        if text and not is_out:
            same(f"{word} {shell}", read(f"{place.folder}/written").decode(), text)
        check(f"{word} {shell} leaves the file", read(place.path("Source")) == before)


def closed_online(place, shell, name, reads, writes, is_out):
    """The words that use the network."""
    place.create(name, f"{name}p")
    server, port = place.serve(name, 2, shell=shell)
    with peer.Client(port) as client:
        same(f"a line to serve {shell}", client.line(ANN.strip()), "add: ok usn=1")
    if is_out:
        same(f"serve {shell}", ended(server), (writes, ""))
    else:
        place.expect(["send", str(port)], 0, "delete: ok usn=2\n", given=b"delete #10\n")
        same(f"serve {shell}", ended(server), (0, "connection 1: 1 end\nconnection 2: 1 end\n"))
    place.expect(["show", name], 0, f"show {name}: 1\n{SHOWN}" if is_out else f"show {name}: 0\n")
    server, port = place.serve("Source", 1)
    place.expect(["pull", f"{name}p", str(port)], writes, said(f"deliver {name}p: ok items=1 wrote=1 usn=1\n", is_out), shell=shell)
    ended(server)
    place.expect(["show", f"{name}p"], 0, f"show {name}p: 1\n{SHOWN}")
    server, port = place.serve(f"{name}p", 1)
    status, written = place.run("send", str(port), given=b"delete #10\n", shell=shell)
    same(f"send {shell}", (status, written), (reads, said("delete: ok usn=2\n", is_out or reads)))
    if reads == 4:
        # It never connected.
        peer.Client(port).close()
    ended(server)


def taken_away(place):
    """A file that another hand takes from under a server: no write is acknowledged, and the server ends with 6."""
    other = b"another hand's bytes"

    def replace(path):
        with open(f"{path}.new", "wb") as file:
            file.write(other)
        os.rename(f"{path}.new", path)

    hands = {
        "Removed": (os.remove, lambda path: not os.path.exists(path)),
        "Replaced": (replace, lambda path: read(path) == other),
        "Moved": (lambda path: os.rename(path, f"{path}.away"), lambda path: not os.path.exists(path)),
        "Cut": (lambda path: os.truncate(path, 60), lambda path: os.path.getsize(path) == 60),
        "Emptied": (lambda path: os.truncate(path, 0), lambda path: os.path.getsize(path) == 0),
        "Longer": (lambda path: os.truncate(path, os.path.getsize(path) + 1), lambda path: True),
    }
    for name, (hand, is_left) in hands.items():
        place.create(name)
        server, port = place.serve(name, 2)
        with peer.Client(port) as client:
            same("a line before", client.line('add #10 container #1 "x"'), "add: ok usn=1")
        hand(place.path(name))
        status, written = place.run("send", str(port), given=ANN.replace(b"#10", b"#11"))
        check(f"no write to a file that is {name.lower()}", status in (7, 14) and written == "", (status, written))
        same(f"serve of a file that is {name.lower()}", ended(server), (6, "connection 1: 1 end\n"))
        check(f"a file that is {name.lower()} is as the other hand left it", is_left(place.path(name)))
    two_servers(place)


def two_servers(place):
    """A second controller of the name while the first one serves: only the second acknowledges."""
    place.create("Twice")
    first, port = place.serve("Twice", 1)
    os.rename(place.path("Twice"), place.path("Old"))
    place.create("Twice")
    second, other = place.serve("Twice", 1)
    status, written = place.run("send", str(port), given=ANN)
    check("the first of two servers acknowledges nothing", status in (7, 14) and written == "", (status, written))
    same("the first of two servers", ended(first), (6, ""))
    place.expect(["send", str(other)], 0, "add: ok usn=1\n", given=ANN)
    same("the second of two servers", ended(second), (0, "connection 1: 1 end\n"))
    place.expect(["show", "Old"], 0, "show Old: 0\n")


def stop(process):
    """Stops a process for a moment; a call that waits for a peer is interrupted by that."""
    for number in (signal.SIGSTOP, signal.SIGCONT):
        process.send_signal(number)
        time.sleep(0.2)


def stopped(place):
    """Processes that are stopped and continued, as by a terminal or a tracer, answer as if nothing had been."""
    place.create("Stopped")
    server, port = place.serve("Stopped", 2)
    with peer.Client(port) as client:
        time.sleep(0.1)
        stop(server)
        same("a line to a server that was stopped", client.line('add #10 container #1 "x"'), "add: ok usn=1")
        client.send_bytes(peer.frame(peer.LINE, b"delete #10")[:7])
        time.sleep(0.1)
        stop(server)
        client.send_bytes(peer.frame(peer.LINE, b"delete #10")[7:])
        same("a line in two pieces", client.hear_line(b"delete #10"), "delete: ok usn=2")
    stop(server)
    peer.Client(port).close()
    same("a server that was stopped", ended(server), (0, "connection 1: 2 end\nconnection 2: 0 end\n"))
    with socket.socket() as listener:
        listener.bind(("127.0.0.1", 0))
        listener.listen()
        sender = place.start("send", str(listener.getsockname()[1]))
        sender.stdin.write(b"delete #10\n")
        sender.stdin.close()
        sender.stdin = None
        line = peer.Connection(listener.accept()[0])
        line.hear(peer.LINE)
        time.sleep(0.1)
        stop(sender)
        line.say(peer.ANSWER, b"delete: ok usn=3")
        same("a sender that was stopped", ended(sender), (0, "delete: ok usn=3\n"))
        line.close()
    reader = place.start("replay")
    time.sleep(0.1)
    stop(reader)
    reader.stdin.write(b"controller A #a0 #a1\n")
    same("a reader that was stopped", ended(reader), (0, "controller A: ok\n"))


def drip(line, raw, is_over):
    """Sends a byte now and then, until the peer hangs up: the seconds that took."""
    begun = time.monotonic()
    try:
        for byte in raw:
            line.sendall(bytes([byte]))
            time.sleep(0.4)
            if is_over(line):
                break
    except OSError:
        pass
    return time.monotonic() - begun


def is_hung_up(line):
    line.setblocking(False)
    try:
        return line.recv(1) == b""
    except BlockingIOError:
        return False
    finally:
        line.settimeout(PATIENCE)


def slow_sender(place):
    """A client that sends a byte now and then is hung up, and the next one is served."""
    place.create("Dripped")
    server, port = place.serve("Dripped", 2)
    with socket.create_connection(("127.0.0.1", port)) as line:
        seconds = drip(line, peer.frame(peer.LINE, b"x" * 400), is_hung_up)
    check("a client that drips is hung up behind a minute", 50 < seconds < 75, seconds)
    place.expect(["send", str(port)], 0, "add: ok usn=1\n", given=ANN)
    same("a server that was dripped at", ended(server), (0, "connection 1: 0 fault\nconnection 2: 1 end\n"))


def slow_reader(place):
    """A client that never reads is hung up, and the next one is served."""
    place.create("Unread")
    server, port = place.serve("Unread", 2)
    line = socket.socket()
    line.setsockopt(socket.SOL_SOCKET, socket.SO_RCVBUF, 4096)
    line.connect(("127.0.0.1", port))
    line.settimeout(1)
    try:
        for _ in range(100):
            line.sendall(peer.frame(peer.GREETING) * 20_000)
    except OSError:
        pass
    begun = time.monotonic()
    status, written = place.run("send", str(port), given=ANN)
    seconds = time.monotonic() - begun
    line.close()
    check("behind a client that never reads the next is served, or gives up behind a minute", (status, written) in ((0, "add: ok usn=1\n"), (7, "")), (status, written))
    check("a client that never reads is hung up behind a minute", seconds < 75, seconds)
    status, written = ended(server)
    check("a server that wasn't read", status == 0 and re.fullmatch(r"connection 1: \d+ fault\nconnection 2: 1 (end|fault)\n", written), (status, written))


def slow_partner(place):
    """A partner that answers a byte now and then ends a pull with 7."""
    place.create("Puller")
    with socket.socket() as listener:
        listener.bind(("127.0.0.1", 0))
        listener.listen()
        puller = place.start("pull", "Puller", str(listener.getsockname()[1]))
        line, _ = listener.accept()
        seconds = drip(line, peer.frame(peer.IDENTITY, b"x" * 400), lambda _: puller.poll() is not None)
        line.close()
    same("a pull from a partner that drips", ended(puller), (7, ""))
    check("a pull ends behind a minute", 50 < seconds < 75, seconds)


def full_disk(place):
    """A disk that is full: nothing is acknowledged that isn't there, and the server ends with 6."""

    def limit():
        resource.setrlimit(resource.RLIMIT_FSIZE, (20_000, 20_000))

    # Python leaves SIGXFSZ ignored, so a write beyond the limit fails.
    place.create("Full")
    server, port = place.serve("Full", 1, preexec_fn=limit, restore_signals=False)
    done = 0
    with peer.Client(port) as client:
        try:
            while True:
                answer = client.line(f'add #{0x100 + done:x} container #1 "n{done}"')
                check("a line on a disk that fills", answer == f"add: ok usn={done + 1}", answer)
                done += 1
        except (peer.BadPeer, OSError):
            pass
    same("a server on a full disk", ended(server), (6, ""))
    check("some lines were acknowledged before", done > 20, done)
    status, written = place.run("show", "Full")
    same("behind a full disk what was acknowledged is there", (status, written.split("\n")[0]), (0, f"show Full: {done}"))
    status, written = place.run("show", "Full", shell="> /dev/full")
    same("show into a full device", (status, written), (5, ""))


def killed(place):
    """A server that is killed: what was acknowledged is there, and at most one more."""
    place.create("Killed")
    done = 0
    for turn in range(12):
        server, port = place.serve("Killed", 1)
        threading.Timer(0.01 * (turn + 1), server.kill).start()
        try:
            with peer.Client(port) as client:
                while True:
                    client.line(f'add #{0x100 + done:x} container #1 "n{done}"')
                    done += 1
        except (peer.BadPeer, OSError):
            pass
        server.wait()
        server.communicate()
        status, written = place.run("show", "Killed")
        there = int(written.split("\n")[0].split()[-1]) if status == 0 else -1
        check("behind a kill what was acknowledged is there, and at most one more", there in (done, done + 1), (status, written[:40], done))
        done = max(done, there)


def no_files(place):
    """Names of what is no regular file: nothing is opened, made or followed."""
    place.create("There")
    os.mkdir(place.path("Folder"))
    os.mkfifo(place.path("Pipe"))
    os.symlink("There.adr", place.path("Link"))
    os.symlink("Nowhere.adr", place.path("Astray"))
    with socket.socket(socket.AF_UNIX) as door:
        door.bind(place.path("Socket"))
    before = read(place.path("There"))
    for name in ("Folder", "Pipe", "Link", "Astray", "Socket"):
        for word in ("create", "show"):
            place.expect([word, name], 6, "")
    check("nothing was followed", read(place.path("There")) == before and not os.path.exists(place.path("Nowhere")))


def pages(place):
    """The commands of the pages, as they stand there: a line that begins with `$` is a command, all else is what is written."""
    for page in ("README.md", "docs/NODE.md"):
        with open(os.path.join(TOP, page), encoding="utf-8") as file:
            blocks = re.findall(r"^```\n(.*?)^```$", file.read(), re.M | re.S)
        for block in blocks:
            if block.startswith("$ adrep"):
                walk(place, page, block.replace("4000", str(free_port())))
    with open(os.path.join(TOP, "README.md"), encoding="utf-8") as file:
        story, shown = re.search(r"## A story\n\n```\n(.*?)```\n\ngives\n\n```\n(.*?)```", file.read(), re.S).groups()
    place.expect(["replay"], 0, shown, given=story.encode())


# What the pages ask `ss` for, where that isn't installed.
LISTENING = """command -v ss > /dev/null || ss() { python3 -c '
for line in list(open("/proc/net/tcp"))[1:]:
    _, here, _, state, *_ = line.split()
    if state == "0A": print("LISTEN 127.0.0.1:%d " % int(here.split(":")[1], 16))
'; }
"""


def walk(place, page, block):
    lines = block.splitlines()
    commands = [line[2:] for line in lines if line.startswith("$ ")]
    due = [line for line in lines if not line.startswith("$ ")]
    script = LISTENING + f'adrep() {{ "{place.program}" "$@"; }}\n' + "\n".join(commands) + "\nwait\n"
    done = subprocess.run(["bash", "-c", script], cwd=place.folder, stdin=subprocess.DEVNULL, capture_output=True, text=True, timeout=PATIENCE)
    # A server in the background writes its lines between the others.
    same(f"{page}: {commands[0]}", sorted(done.stdout.splitlines()), sorted(due))
    same(f"{page}: standard error of {commands[0]}", done.stderr, "")


PARTS = (closed_streams, taken_away, stopped, full_disk, killed, no_files, pages)
SLOW = (slow_sender, slow_reader, slow_partner)


def guarded(part, program, top):
    try:
        part(Place(program, top, part.__name__))
    except Exception:
        found.append(f"{part.__name__}: {traceback.format_exc()}")


def main():
    parser = argparse.ArgumentParser(description=__doc__, formatter_class=argparse.RawDescriptionHelpFormatter)
    parser.add_argument("--program", default=f"{TOP}/crates/adrep/out/adrep")
    parser.add_argument("--only", nargs="+", default=[])
    asked = parser.parse_args()
    program = os.path.abspath(asked.program)
    begun = time.monotonic()
    with tempfile.TemporaryDirectory() as top:
        is_wanted = lambda part: not asked.only or part.__name__ in asked.only
        slow = [threading.Thread(target=guarded, args=(part, program, top)) for part in SLOW if is_wanted(part)]
        for thread in slow:
            thread.start()
        for part in filter(is_wanted, PARTS):
            guarded(part, program, top)
        for thread in slow:
            thread.join()
    for line in found:
        print(line)
    print(f"real files, streams and sockets: {tried} tried, {len(found)} wrong, {time.monotonic() - begun:.0f} s")
    return 1 if found else 0


if __name__ == "__main__":
    sys.exit(main())
