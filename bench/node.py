#!/usr/bin/env python3
"""Runs real processes over files and over TCP: controllers are made, shown, backed up and put back, served, pulled and killed.

Usage: bench/node.py [--program PATH] [--killed PATH] [--rounds N] [--seed N] [--only PART..] [--slow]
       bench/node.py --figures N [--folder F]

What is tried over files: a walk with each command and each refusal; a controller with objects (of `adr_test_killed`), whose
JSON and whose lines have to tell the same, and whose image makes two more controllers that show the same; `create` and
`install` killed at random moments, behind which a start has to find no log (`damaged 0`) or the whole controller; names of
links, pipes and directories; a file that another process holds; a file system that is full; standard output that takes nothing.

What is tried over TCP: a walk of two nodes with `serve`, `send` and `pull`; random lines and requests, each answer compared with
the second reading of the rules; requests and replies with a byte changed, a part missing or too much, compared with the second
codec (bench/client.py); clients and servers that are rude; a client that shows that a disk was put back; meshes of two and of
three nodes whose `serve`, `pull` and `send` are killed at random moments, behind which nothing acknowledged may be lost, and at
most one line more be done. With --slow also a client that stalls, and a connection of a million messages.

It prints what it tried, and ends with 1 where anything was otherwise than it should. With --figures it measures instead.
"""
import argparse
import copy
import fcntl
import itertools
import json
import os
import random
import re
import shutil
import signal
import socket
import stat
import subprocess
import sys
import tempfile
import threading
import time
import traceback

sys.path.insert(0, os.path.dirname(os.path.abspath(__file__)))
import client as peer
import compare
import read_log
import second_reading as rules

TOP = os.path.dirname(os.path.dirname(os.path.abspath(__file__)))
USAGE = (
    b"usage: adrep replay | exercise N | create NAME | install NAME | restore NAME DSA | backup NAME | show NAME"
    b" | export NAME | serve NAME PORT COUNT | pull NAME PORT | send PORT\n"
)
EMPTY = b"ADIM\0\2\0\0\0\1" + bytes(28)
# The one that an earlier build made.
EARLIER = b"ADIM\0\1\0\0\0\1" + bytes(28)
# seconds that a command may take
PATIENCE = 120
# the most messages of a connection
MESSAGES_MOST = 1000000
# below the ports that the system gives to whoever connects: else a connect to a free port could meet itself
PORTS = range(20000, 32000)
found = []
tried = {}
running = set()


def check(what, is_so, told=""):
    tried[what] = tried.get(what, 0) + 1
    if not is_so:
        found.append(f"{what}: {told}")
    return is_so


class Node:
    """The program, run in one folder."""

    def __init__(self, program, folder):
        self.program, self.folder = program, folder

    def run(self, *words, given=b"", stdout=subprocess.PIPE):
        done = subprocess.run([self.program, *words], cwd=self.folder, input=given, stdout=stdout, stderr=subprocess.PIPE,
                              timeout=PATIENCE)
        check("nothing goes to standard error", done.stderr == b"", done.stderr)
        return done.returncode, done.stdout

    def expect(self, words, status, written, given=b""):
        told = self.run(*words, given=given)
        check(f"{words[0]} answers {status}", told == (status, written), f"{words} gave {told}, not {(status, written)}")

    def start(self, *words, given=None):
        """A process that runs beside this one. Its input, if there is some, has to fit into a pipe."""
        process = subprocess.Popen([self.program, *words], cwd=self.folder, stdin=subprocess.DEVNULL if given is None else subprocess.PIPE,
                                   stdout=subprocess.PIPE, stderr=subprocess.PIPE, bufsize=0)
        process.front = b""
        running.add(process)
        if given is not None:
            give(process, given)
        return process

    def create(self, *names):
        for name in names:
            self.expect(["create", name], 0, f"create {name}: ok\n".encode())

    def path(self, name):
        return f"{self.folder}/{name}.adr"

    def times(self, name):
        """The times that a node's log tells, by the second reader of logs."""
        with open(self.path(name), "rb") as file:
            state, _ = read_log.read_log(file.read())
        return {int.from_bytes(inv, "big"): time for inv, time in state.times.items()}

    def identifiers(self, name):
        """The numbers of a node's own identifier and of its database's."""
        with open(self.path(name), "rb") as file:
            head = file.read(39)
        return int.from_bytes(head[7:23], "big"), int.from_bytes(head[23:39], "big")

    def view(self, name):
        """The entries that a node exports, by GUID."""
        status, exported = self.run("export", name)
        check("a node can be exported", status == 0, (name, status, exported[:80]))
        return {entry["guid"]: entry for entry in json.loads(exported or b"[]")}


def give(process, given):
    """Writes the input of a process, which may have ended."""
    try:
        process.stdin.write(given)
        process.stdin.close()
    except BrokenPipeError:
        pass
    process.stdin = None


def ended(process, patience=PATIENCE):
    """Waits for a process: its status and what it wrote."""
    out, err = process.communicate(timeout=patience)
    running.discard(process)
    check("nothing goes to standard error", err == b"", err)
    return process.returncode, process.front + out


def wait_for_lines(process, count):
    """Waits until a process has written so many lines, or has ended."""
    while process.front.count(b"\n") < count:
        line = process.stdout.readline()
        if not line:
            break
        process.front += line


def killed(process):
    """Kills a process: what it wrote."""
    process.send_signal(signal.SIGKILL)
    return ended(process)[1]


def kill_all():
    for process in list(running):
        process.kill()
        process.wait()
    running.clear()


def listeners(port):
    """The addresses where someone listens at a port, by the system's tables."""
    found_there = []
    for table in ("/proc/net/tcp", "/proc/net/tcp6"):
        if os.path.exists(table):
            with open(table) as file:
                lines = [line.split() for line in file]
            found_there += [line[1][:-5] for line in lines if line[1].endswith(f":{port:04X}") and line[3] == "0A"]
    return found_there


def is_listening(port):
    return bool(listeners(port))


free_ports = itertools.cycle(PORTS)


def free_port():
    while True:
        port = next(free_ports)
        with socket.socket() as probe:
            try:
                probe.bind(("127.0.0.1", port))
                return port
            except OSError:
                continue


class Server:
    """`serve` of one node as a process. Of each connection it is noted what its line has to say: messages and end."""

    def __init__(self, node, name, count, before=(), starter=None):
        self.node, self.name, self.port, self.due = node, name, free_port(), []
        self.process = (starter or node).start(*before, "serve", name, str(self.port), str(count))
        until = time.monotonic() + PATIENCE
        while not is_listening(self.port) and self.process.poll() is None and time.monotonic() < until:
            time.sleep(0.001)
        check("a server listens at 127.0.0.1 alone", listeners(self.port) == ["0100007F"], (name, self.process.poll(), listeners(self.port)))

    def client(self, patience=PATIENCE):
        return peer.Client(self.port, patience)

    def pull(self, name, status, lines, requests=1):
        """`pull` of another node from this one."""
        self.node.expect(["pull", name, str(self.port)], status, lines)
        self.due.append((f"{1 + requests} end",))

    def send(self, text, status, answers):
        """`send` of lines to this one."""
        self.node.expect(["send", str(self.port)], status, answers, given=text)
        self.due.append((f"{answers.count(10)} end",))

    def finish(self, status=0, patience=PATIENCE):
        """Waits for the server, and compares the lines that it wrote."""
        told, written = ended(self.process, patience)
        check(f"serve ends with {status}", told == status, (self.name, told, written))
        lines = written.decode().splitlines()
        check("a server writes a line for each connection", len(lines) == len(self.due), (lines, self.due))
        for number, (line, due) in enumerate(zip(lines, self.due), 1):
            check("a connection's line tells its messages and its end", line in [f"connection {number}: {one}" for one in due], (line, due))

    def kill(self):
        return killed(self.process)


def walk(node):
    """Each command, and each refusal."""
    node.expect(["show", "London"], 10, b"damaged 0\n")
    check("a look makes no file", not os.path.exists(node.path("London")))
    node.expect(["create", "London"], 0, b"create London: ok\n")
    mode = stat.S_IMODE(os.stat(node.path("London")).st_mode)
    check("a file is its owner's", mode == 0o600, oct(mode))
    node.expect(["show", "London"], 0, b"show London: 0\n")
    node.expect(["export", "London"], 0, b"[]\n")
    node.expect(["backup", "London"], 0, EMPTY)
    before = open(node.path("London"), "rb").read()
    for words in (["create", "London"], ["install", "London"], ["restore", "London", "#b0"]):
        node.expect(words, 9, b"refused NotEmpty\n", given=EMPTY)
    check("a refusal changes nothing", open(node.path("London"), "rb").read() == before)
    node.expect(["install", "Paris"], 9, b"refused Malformed place=34\n", given=EMPTY[:-1])
    node.expect(["install", "Paris"], 9, b"refused Malformed place=38\n", given=EMPTY + b"x")
    node.expect(["install", "Paris"], 9, b"refused WrongVersion found=3\n", given=b"ADIM\0\3" + EMPTY[6:])
    check("a refused image makes no file", not os.path.exists(node.path("Paris")))
    node.expect(["install", "Paris"], 0, b"install Paris: ok\n", given=EARLIER)
    node.expect(["restore", "Rome", "#b0"], 0, b"restore Rome: ok\n", given=EMPTY)
    identifiers = [open(node.path(name), "rb").read()[7:39] for name in ("London", "Paris", "Rome")]
    check("restored under the given identifier", identifiers[2][:16] == bytes(15) + b"\xb0", identifiers[2])
    drawn = [identifiers[0][:16], identifiers[0][16:], identifiers[1][:16], identifiers[1][16:], identifiers[2][16:]]
    check("drawn identifiers differ", len(set(drawn)) == 5)
    check("drawn identifiers are of version 4", all(i[6] >> 4 == 4 and i[8] >> 6 == 2 for i in drawn))
    with open(node.path("Oslo"), "wb") as file:
        file.write(b"abc")
    for words in (["show", "Oslo"], ["export", "Oslo"], ["backup", "Oslo"]):
        node.expect(words, 10, b"damaged 0\n")
    for words in ([], ["show"], ["show", "a/b"], ["show", "9x"], ["show", "-x"], ["restore", "X", "b0"], ["--help"], ["create", "x" * 33],
                  [b"\xff"], ["show", b"\xff"]):
        node.expect(words or [""], 2, USAGE)


def no_files(node):
    """Names of what is no regular file of the folder: nothing is read, written or made."""
    before = open(node.path("London"), "rb").read()
    os.mkdir(node.path("Folder"))
    os.mkfifo(node.path("Pipe"))
    os.symlink("London.adr", node.path("Link"))
    os.symlink("Nowhere.adr", node.path("Astray"))
    for name, command in itertools.product(("Folder", "Pipe", "Link", "Astray"), ("create", "show", "backup")):
        node.expect([command, name], 6, b"")
    check("what a link leads to stays", open(node.path("London"), "rb").read() == before and not os.path.exists(node.path("Nowhere")))


def entries_of_lines(lines):
    """The GUIDs, classes, names and account names that the lines of a `show` tell."""
    line = re.compile(r'  #(\S+) (\S+) parent=#(\S+) name="([^"]*)"')
    return [line.match(one).groups() for one in lines]


def full(token):
    """The full text of an identifier's token."""
    number = int(token.replace("-", "").zfill(32), 16)
    digits = f"{number:032x}"
    return "-".join((digits[:8], digits[8:12], digits[12:16], digits[16:20], digits[20:]))


def with_objects(node, killed):
    """A controller with objects: its JSON and its lines tell the same, and so do controllers of its image."""
    for words in (["new", "Berlin"], ["run", "Berlin", "0", "300"]):
        done = subprocess.run([killed, *words], cwd=node.folder, stdout=subprocess.PIPE)
        check("objects are added", done.returncode == 0, done)
    _, shown = node.run("show", "Berlin")
    lines = shown.decode().splitlines()
    check("all objects are shown", lines[0] == "show Berlin: 300", lines[0])
    _, exported = node.run("export", "Berlin")
    entries = json.loads(exported)
    told = [(full(guid), kind, full(parent), name) for guid, kind, parent, name in entries_of_lines(lines[1:])]
    check("JSON tells what the lines tell", told == [(e["guid"], e["class"], e["parent"], e["name"]) for e in entries])
    check("JSON is compact", exported == (json.dumps(entries, separators=(",", ":"), ensure_ascii=False) + "\n").encode())
    check("members go in order", all(list(e) == ["class", "guid", "links", "name", "parent", "values"] for e in entries))
    _, image = node.run("backup", "Berlin")
    node.expect(["install", "Bern"], 0, b"install Bern: ok\n", given=image)
    node.expect(["restore", "Bonn", "#b1"], 0, b"restore Bonn: ok\n", given=image)
    for name in ("Bern", "Bonn"):
        _, other = node.run("show", name)
        check("a controller of an image shows the same", other.decode().splitlines()[1:] == lines[1:])
        _, other = node.run("export", name)
        check("and exports the same", other == exported)
    return image


def killed_while_made(node, image, rounds, chance):
    """`create` and `install` killed at random moments: no log is there, or the whole controller."""
    whole = 0
    for count in range(rounds):
        name, words = f"K{count}", ["create", f"K{count}"] if count % 2 else ["install", f"K{count}"]
        process = subprocess.Popen([node.program, *words], cwd=node.folder, stdin=subprocess.PIPE, stdout=subprocess.PIPE)
        try:
            process.stdin.write(image)
            process.stdin.close()
        except BrokenPipeError:
            pass
        time.sleep(chance.uniform(0, 0.02))
        process.send_signal(signal.SIGKILL)
        told = process.stdout.read()
        process.wait()
        status, shown = node.run("show", name)
        entries = b"0" if count % 2 else b"300"
        is_whole = status == 0 and shown.startswith(f"show {name}: ".encode() + entries + b"\n")
        check("a killed making leaves no log or all of it", is_whole or (status, shown) == (10, b"damaged 0\n"), (words, status, shown[:80]))
        check("what was told is there", is_whole or not told, (words, told, shown[:80]))
        whole += is_whole
    print(f"of {rounds} that were killed {whole} were made")


def kept_out(node):
    """A file that another process holds."""
    with open(node.path("London"), "rb+") as file:
        fcntl.flock(file, fcntl.LOCK_EX)
        before = file.read()
        for words in (["show", "London"], ["export", "London"], ["backup", "London"], ["create", "London"]):
            node.expect(words, 6, b"")
        file.seek(0)
        check("a locked file stays", file.read() == before)
    node.expect(["show", "London"], 0, b"show London: 0\n")


def full_device(program):
    """A file system without room for the log."""
    folder = tempfile.mkdtemp()
    if subprocess.run(["mount", "-t", "tmpfs", "-o", "size=4k", "tmpfs", folder], capture_output=True).returncode:
        print("no full file system was tried: nothing could be mounted")
        return
    try:
        with open(f"{folder}/filler", "wb") as filler:
            filler.write(bytes(4096))
        node = Node(program, folder)
        node.expect(["create", "Full"], 6, b"")
        os.remove(f"{folder}/filler")
        status, shown = node.run("show", "Full")
        check("what was cut short is no log", (status, shown) == (10, b"damaged 0\n"), (status, shown))
    finally:
        subprocess.run(["umount", folder])


def failing_output(node):
    """Standard output that takes nothing."""
    with open("/dev/full", "wb") as output:
        status, _ = node.run("show", "London", stdout=output)
        check("show answers 5", status == 5, status)
        status, _ = node.run("create", "Lost", stdout=output)
        check("create answers 5", status == 5, status)
    node.expect(["show", "Lost"], 0, b"show Lost: 0\n")


# --- over TCP: two nodes, and each answer compared ------------------------------------------------------------------
STORY = b"""; a group, and who is in it
add #10 group #1 "Staff" groupType=2

add #11 user #1 "Ann" sAMAccountName="ann"
link #10 member #11
  modify   #11 displayName="Ann \\"A\\" Lee" employeeNumber=7  
rename #11 #1 "Ann Lee"
add #12 container #1 "Old"
collect 0
delete #12"""
STORY_ANSWERS = b"""add: ok usn=1
add: ok usn=2
link: ok usn=3
modify: ok usn=4
rename: ok usn=5
add: ok usn=6
collect: ok removed=0
delete: ok usn=7
"""
REFUSED = b"""add #11 user #1 "Anne" sAMAccountName="anne"
delete #99
modify #11 mail="a@b.example"
modify #11 member=#12
"""
REFUSED_ANSWERS = b"""add: refused 17 GuidThere guid=#11
delete: refused 10 NoObject guid=#99
modify: ok usn=8
modify: refused 6 IsLink attr=member
"""
BAD_TEXTS = [
    (b"delete #11\nshow\n", b"line 2: no command\n"), (b"delete London #11\n", b"line 1: no command\n"),
    (b"\n;\xff\ndelete #11\n\xff", b"line 4: not UTF-8\n"), (b"delete #11\ncollect\n", b"line 2: no command\n"),
    (b"delete #11\r\n", b"line 1: no command\n"), (b"delete #11" + bytes(1), b"line 1: no command\n"),
    (b"delete #11" + b" " * 65527, b"line 1: no command\n"), (b"show\n\xff\n", b"line 1: no command\n"),
    (b"\n" * (16 * 1024 * 1024 + 1), b"line 0: too long\n"),
]


def shown_by(node, name):
    """What `show` writes behind its first word and the name."""
    status, shown = node.run("show", name)
    check("a node can be shown", status == 0, (name, status, shown[:80]))
    return shown.partition(b": ")[2]


def equal_exports(node, *names):
    exports = [node.run("export", name) for name in names]
    told = [(name, export[-300:]) for name, (_, export) in zip(names, exports)]
    check("all nodes export the same bytes", exports.count(exports[0]) == len(exports), told)


def two_nodes(node):
    """A walk: lines that are sent, refused or bad, and pulls of one node from the other."""
    node.create("London", "Paris")
    server = Server(node, "London", 12)
    server.send(STORY, 0, STORY_ANSWERS)
    server.send(REFUSED, 9, REFUSED_ANSWERS)
    for bad, told in BAD_TEXTS:
        node.expect(["send", str(server.port)], 3, told, given=bad)
    server.send(b"", 0, b"")
    server.send(b"; nothing\n\n  \n", 0, b"")
    server.send(b"delete #99" + b" " * 65526, 9, b"delete: refused 10 NoObject guid=#99\n")
    failing_streams(node, server)
    server.pull("Paris", 0, b"deliver Paris: ok items=4 wrote=4 usn=4\n")
    server.pull("Paris", 0, b"deliver Paris: ok items=0 wrote=0 usn=4\n")
    with server.client() as client:
        state = peer.pull_all(client, 0xc0, 3)
        server.due.append((f"{client.said} end",))
    with server.client() as client:
        check("a greeting is answered by the identifier", int.from_bytes(client.greet(), "big") == node.identifiers("London")[0])
        check("a line that says nothing is bad", [client.line(line) for line in ("", ";", "show", b"\xff", "add N")] == ["bad line"] * 5)
        server.due.append(("6 end",))
    told = subprocess.run([sys.executable, f"{TOP}/bench/client.py", str(server.port), "London"], stdout=subprocess.PIPE, timeout=PATIENCE)
    server.due.append(("2 end",))
    server.finish()
    _, shown = node.run("show", "London")
    check("a client that pulls all has the directory", peer.shown(state, "London").encode() == shown, shown)
    check("the client's script writes what show writes", (told.returncode, told.stdout) == (0, shown), told)
    check("both nodes show the same", shown_by(node, "London") == shown_by(node, "Paris"))
    equal_exports(node, "London", "Paris")
    server = Server(node, "Paris", 2)
    server.send(b"rename #11 #1 \"Anne Lee\"\nunlink #10 member #11\n", 0, b"rename: ok usn=5\nunlink: ok usn=6\n")
    server.pull("London", 0, b"deliver London: ok items=2 wrote=2 usn=11\n")
    server.finish()
    equal_exports(node, "London", "Paris")
    both_change_over(node)


def both_change_over(node):
    """Two nodes take the second schema, one after the other; in between each refuses the other."""
    server = Server(node, "London", 4)
    server.send(b"add #20 contact #1 \"Bo\"\n", 9, b"add: refused 1 UnknownClass\n")
    server.send(b"upgrade\nupgrade\n", 9, b"upgrade: ok\nupgrade: refused 52 SchemaThere number=2\n")
    server.send(b"add #20 contact #1 \"Bo\" title=\"Dr\"\nlink #10 managedBy #11\n", 0, b"add: ok usn=12\nlink: ok usn=13\n")
    server.pull("Paris", 9, b"refused 31 SchemaMismatch mine=2 theirs=1\n")
    server.finish()
    server = Server(node, "Paris", 2)
    server.pull("London", 9, b"refused 31 SchemaMismatch mine=1 theirs=2\n")
    server.send(b"upgrade\n", 0, b"upgrade: ok\n")
    server.finish()
    server = Server(node, "London", 2)
    before = int(time.time())
    server.pull("Paris", 0, b"deliver Paris: ok items=2 wrote=2 usn=8\n")
    after = int(time.time())
    with server.client() as client:
        state = peer.pull_all(client, 0xc0, 3)
        server.due.append((f"{client.said} end",))
    server.finish()
    check("a client changes over too", state.schema == 2)
    equal_exports(node, "London", "Paris")
    entry = node.view("Paris")[guid_text(0x20)]
    check("a contact comes over", (entry["class"], entry["values"]) == ("contact", {"title": ["Dr"]}), entry)
    told = node.times("Paris").get(node.identifiers("London")[1], 0)
    check("a pull keeps when its partner made the last reply", before <= told <= after, (before, told, after))


def failing_streams(node, server):
    """Standard input that can't be read, and standard output that takes nothing."""
    folder = os.open(node.folder, os.O_RDONLY)
    done = subprocess.run([node.program, "send", str(server.port)], cwd=node.folder, stdin=folder, stdout=subprocess.PIPE, timeout=PATIENCE)
    os.close(folder)
    check("send answers 4", (done.returncode, done.stdout) == (4, b""), done)
    with open("/dev/full", "wb") as output:
        status, _ = node.run("send", str(server.port), given=b"modify #11 mail=\"c@d.example\"\nmodify #11 mail=\n", stdout=output)
        check("send answers 5", status == 5, status)
        server.due.append(("1 end",))
        node.create("Lost")
        status, _ = node.run("pull", "Lost", str(server.port), stdout=output)
        check("pull answers 5", status == 5, status)
        server.due.append(("2 end",))
    equal = node.view("Lost")
    check("a reply is kept whose line couldn't be written", len(equal) == 2, equal)


def nobody_there(node):
    """Files that aren't there or are held, and ports that are taken or where nobody listens."""
    port = str(free_port())
    for words in (["serve", "Nobody", port, "1"], ["pull", "Nobody", port]):
        node.expect(words, 10, b"damaged 0\n")
    check("a look makes no file", not os.path.exists(node.path("Nobody")))
    node.create("Rome")
    for words in (["pull", "Rome", port], ["send", port]):
        node.expect(words, 7, b"", given=b"delete #11\n")
    node.expect(["send", port], 3, b"line 1: no command\n", given=b"show\n")
    with socket.socket() as taken:
        taken.bind(("127.0.0.1", int(port)))
        taken.listen()
        node.expect(["serve", "Rome", port, "1"], 7, b"")
    server = Server(node, "Rome", 1)
    for words in (["show", "Rome"], ["export", "Rome"], ["backup", "Rome"], ["create", "Rome"], ["pull", "Rome", port],
                  ["serve", "Rome", port, "1"]):
        node.expect(words, 6, b"", given=EMPTY)
    with server.client() as client:
        client.send_bytes(bytes(4))
        check("a server hangs up at rubbish", hung_up(client))
        server.due.append(("0 malformed",))
    server.finish()
    for words in (["serve", "Rome", "0", "1"], ["serve", "Rome", "65536", "1"], ["serve", "Rome", port, "0"], ["serve", "Rome", port, "1001"],
                  ["serve", "Rome", port], ["pull", "Rome", "0"], ["pull", "Rome"], ["send"], ["send", "065"], ["send", "x"], ["send", "9", "9"]):
        node.expect(words, 2, USAGE)
    again = node.start("serve", "Rome", str(server.port), "1")
    while not is_listening(server.port) and again.poll() is None:
        time.sleep(0.001)
    check("a server may listen at the port of one that has just ended", again.poll() is None, again.poll())
    killed(again)
    with open("/dev/full", "wb") as output:
        process = subprocess.Popen([node.program, "serve", "Rome", port, "2"], cwd=node.folder, stdin=subprocess.DEVNULL, stdout=output)
        running.add(process)
        while not is_listening(int(port)) and process.poll() is None:
            time.sleep(0.001)
        peer.Client(int(port)).close()
        check("serve answers 5", process.wait(PATIENCE) == 5, process.returncode)
        running.discard(process)


class Both:
    """Two nodes, and the same two by the second reading of the rules."""

    def __init__(self, node, chance, names=("London", "Paris"), collects=False):
        self.node, self.chance, self.names = node, chance, names
        node.create(*names)
        self.world = rules.World()
        for name in names:
            self.world.controllers[name] = rules.Controller(rules.State(*node.identifiers(name)))
        self.maker = compare.Maker(chance.random(), "plain")
        self.maker.world = self.world
        self.verbs = ["add"] * 6 + ["modify"] * 6 + ["rename"] * 4 + ["delete"] * 3 + ["link"] * 4 + ["unlink"] * 2
        self.verbs += ["collect"] * 2 + ["upgrade"] if collects else []

    def state(self, name):
        return self.world.controllers[name].read

    def spoiled_line(self, line):
        place = self.chance.randrange(len(line) + 1)
        return self.chance.choice((line[:place], line[:place] + b" " + line[place:], line[:place] + line[place + 1:],
                                   line[:place] + self.chance.choice((b"\xff", b"\t", b"\"", b"\0", b"#", b"=", b",")) + line[place:]))

    def random_line(self, name):
        """A line for a node, or none."""
        verb = self.chance.choice(self.verbs)
        self.maker.names = [name]
        line = f"collect {name} {self.chance.choice((0, 0, 100000))}" if verb == "collect" else self.maker.line(verb)
        if verb == "upgrade" and self.chance.random() < 0.9:
            return None
        if line is None:
            return None
        line = re.sub(f" {name}(?= |$)", "", line, count=1).encode()
        return self.spoiled_line(line) if self.chance.random() < 0.1 else line

    def moment(self, client, name, before, after, answer):
        """The second in which a line was done, which lies between these two; its row tells it where they differ."""
        if before == after or "usn=" not in answer:
            return after
        usn, state = int(answer.partition("usn=")[2]), self.state(name)
        vector = state.vector()
        vector[state.inv] = usn - 1
        mark = rules.Mark(usn - 1, usn - 1, usn - 1)
        known = {inv: seen for inv, seen in vector.items() if seen}
        reply = client.ask(rules.Request(1, state.dsa, state.inv, mark, state.schema, 10, known, self.chance.choice((1, 2))))
        stamps = [row[1] for item in reply.items if item[0] == "object" for row in item[2]]
        stamps += [item[2][1] for item in reply.items if item[0] == "link"]
        return next(stamp.time for stamp in stamps if (stamp.inv, stamp.usn) == (state.inv, usn))

    def say(self, client, name):
        """A random line, said to a node and done by the rules."""
        line = self.random_line(name)
        if line is None:
            return
        before = int(time.time())
        answer = client.line(line)
        after, event = int(time.time()), peer.deed_of(line)
        due = "bad line"
        if event is not None:
            self.world.now = self.moment(client, name, before, after, answer)
            due = self.world.step((event[0], name) + event[2:])[0].replace(f" {name}:", ":", 1)
        check("a line's answer is that of the rules", answer == due, (line, answer, due))

    def random_request(self, name):
        """A request that shows a node no more than it has."""
        chance, state = self.chance, self.state(name)
        vector = {inv: chance.randint(1, usn) for inv, usn in state.vector().items() if chance.random() < 0.7}
        if chance.random() < 0.5:
            vector = state.vector()
        if chance.random() < 0.2:
            vector[chance.getrandbits(128)] = chance.randint(1, 2**63 - 1)
        numbers = sorted(chance.randint(0, state.usn) for _ in range(3))
        mark = rules.Mark(numbers[1], numbers[0], numbers[2]) if chance.random() < 0.9 else rules.Mark(*numbers)
        source = state.dsa if chance.random() < 0.95 else chance.getrandbits(128)
        inv = state.inv if chance.random() < 0.8 else chance.choice((0, 1))
        schema = state.schema if chance.random() < 0.95 else chance.choice((0, 1, 2, 3, 2**32 - 1))
        most = chance.choice((1, 2, 3, 10, 1000, 2**32 - 1))
        mark = mark if chance.random() < 0.7 else rules.ZERO
        return rules.Request(chance.getrandbits(128), source, inv, mark, schema, most, vector, chance.choice((1, 2, 2)))

    def ask(self, client, name, request):
        before = int(time.time())
        self.compare_answer(name, request, client.ask(request), before)

    def compare_answer(self, name, request, answer, before):
        """An answer that came since this second is that of the rules. What moment it was, a last reply tells of its own cursor."""
        self.world.now = after = int(time.time())
        if isinstance(answer, rules.Reply):
            self.world.now = answer.times.get(self.state(name).inv, after)
            check("a reply tells the second at which it was made", before <= self.world.now <= after, (before, self.world.now, after))
        text, reply = self.world.do_serve(name, lambda: request)
        if reply is None:
            check("a refusal is that of the rules", isinstance(answer, rules.Refusal) and answer.text() == text, (request, answer, text))
        else:
            is_so = isinstance(answer, rules.Reply) and in_order(answer) == in_order(reply)
            check("a reply is that of the rules", is_so, (request, answer, reply))

    def due_of_pull(self, dest, source):
        """What a pull has to write by the rules, its status, and how many requests it makes."""
        lines = []
        while True:
            _, request = self.world.do_ask(dest, source, 1000)
            text, reply = self.world.do_serve(source, lambda: request)
            if reply is not None:
                text = self.world.do_deliver(dest, lambda: reply)
            if not text.startswith("ok"):
                return "".join(lines + [text + "\n"]).encode(), 9, len(lines) + 1
            lines.append(f"deliver {dest}: {text}\n")
            if reply.last is not None:
                return "".join(lines).encode(), 0, len(lines)

    def pull(self, server, dest):
        self.world.now = before = int(time.time())
        lines, status, requests = self.due_of_pull(dest, server.name)
        server.pull(dest, status, lines, requests)
        self.compare_times(dest, server.name, before)

    def compare_times(self, dest, source, before):
        """The times in a node's log are those of the rules. When its partner made the last reply since this second, the log tells."""
        told, own, kept = self.node.times(dest), self.state(source).inv, self.state(dest).times
        if told.get(own) != kept.get(own):
            check("a pull keeps when its partner made the last reply", before <= told.get(own, 0) <= int(time.time()), (before, told.get(own)))
            kept[own] = told.get(own, 0)
        check("the times in a log are those of the rules", told == kept, (dest, told, kept))

    def change_over(self):
        """Where one has taken the second schema, so does the other."""
        if {self.state(name).schema for name in self.names} == {1}:
            return
        for name in self.names:
            server = Server(self.node, name, 1)
            with server.client() as client:
                due = self.world.step(("upgrade", name))[0].replace(f" {name}:", ":", 1)
                answer = client.line("upgrade")
                check("an upgrade is answered by the rules", answer == due, (answer, due))
                server.due.append(("1 end",))
            server.finish()

    def compare_shown(self):
        for name in self.names:
            lines = rules.View(self.state(name)).directory()
            due = "".join(line + "\n" for line in [f"{len(lines)}"] + lines).encode()
            shown = shown_by(self.node, name)
            check("a node shows the directory of the rules", shown == due, (name, shown, due))

    def round(self, lines):
        """Lines and requests to one node, and pulls of the other from it."""
        source, dest = self.chance.sample(self.names, 2)
        server = Server(self.node, source, 2)
        with server.client() as client:
            for _ in range(lines):
                self.say(client, source)
                if self.chance.random() < 0.3:
                    self.ask(client, source, self.random_request(source))
            self.compare_pull_of_client(client, source)
            server.due.append((f"{client.said} end",))
        self.pull(server, dest)
        server.finish()
        self.compare_shown()

    def compare_pull_of_client(self, client, source):
        """A client that pulls all has the directory, but from a node that has forgotten something."""
        try:
            state = peer.pull_all(client, self.chance.getrandbits(128), self.chance.choice((1, 2, 3, 1000)), self.chance.choice((1, 2)))
        except rules.Refusal as refusal:
            check("a fresh client is refused only where something was collected", self.state(source).purged and refusal.number == 32, refusal.text())
            return
        directory = rules.View(self.state(source)).directory()
        check("a client that pulls all has the directory", rules.View(state).directory() == directory, (source, directory))


def in_order(reply):
    """A reply with its items in an order of their own: they may come in any."""
    return reply._replace(items=sorted(reply.items, key=repr))


def compared(program, chance, rounds):
    """Random lines, requests and pulls of two nodes, compared with the second reading of the rules."""
    for collects in (False, True):
        with tempfile.TemporaryDirectory() as folder:
            both = Both(Node(program, folder), chance, collects=collects)
            for _ in range(rounds):
                both.round(chance.randint(5, 25))
            both.change_over()
            for _ in range(2):
                for dest, source in (("London", "Paris"), ("Paris", "London")):
                    server = Server(both.node, source, 1)
                    both.pull(server, dest)
                    server.finish()
            both.compare_shown()
            if not collects:
                equal_exports(both.node, "London", "Paris")


# --- over TCP: messages and frames that are spoiled -----------------------------------------------------------------
def spoiled(chance, raw):
    """Bytes with a change: one is another, some are missing or too much."""
    place, other = chance.randrange(len(raw)), bytes([chance.choice((0, 1, 2, 127, 128, 255, chance.randrange(256)))])
    return chance.choice((
        raw[:place] + other + raw[place + 1:], raw[:place] + other + raw[place + 1:], raw[:place] + bytes([raw[place] ^ 1]) + raw[place + 1:],
        raw[:place], raw + other, raw[:place] + raw[place + 1:], raw[:place] + other + raw[place:]))


# the changes of an object's rows
OF_ROWS = ("rows", "version", "stamp", "class", "name")


def changed(chance, reply, state):
    """A reply with another field, or other items."""
    items, other = list(reply.items), chance.getrandbits(128)
    place = chance.randrange(len(items)) if items else 0
    kind = chance.choice(("dest", "inv", "start", "schema", "asked", "last", "own", "version", "times", "missing", "twice", "turned") + OF_ROWS)
    if kind in ("dest", "inv"):
        return reply._replace(**{kind: other})
    if kind == "start":
        return reply._replace(start=rules.Mark(2, 1, 3))
    if kind == "schema":
        return reply._replace(schema=chance.choice((0, 2)))
    if kind == "asked":
        return reply._replace(asked={other: 1})
    if kind == "last":
        return reply._replace(last=chance.choice((None, {other: 5})))
    if kind == "own":
        return reply._replace(last={state.inv: chance.choice((1, 2**63 - 1))})
    if kind == "version":
        return reply._replace(version=3 - reply.version)
    if kind == "times":
        return reply._replace(times={inv: chance.choice((0, 1, chance.getrandbits(40), 2**64 - 1)) for inv in reply.last or {}})
    if not items:
        return reply
    if kind == "missing":
        items.pop(place)
    elif kind == "twice":
        items.append(items[place])
    elif kind == "turned":
        chance.shuffle(items)
    elif items[place][0] == "object":
        items[place] = ("object", items[place][1], changed_rows(chance, kind, list(items[place][2])))
    return reply._replace(items=items)


def changed_rows(chance, kind, rows):
    place = chance.randrange(len(rows))
    attr, stamp, content = rows[place]
    if kind == "rows" and len(rows) > 1:
        rows.pop(place)
    elif kind == "version":
        rows[place] = (attr, stamp._replace(version=stamp.version + 1), content)
    elif kind == "stamp":
        rows[place] = (attr, stamp._replace(inv=chance.getrandbits(128), usn=chance.randint(1, 9)), content)
    elif attr == 1 and kind == "class":
        rows[place] = (attr, stamp, chance.choice((0, 1, 3, 4, 5, 6, 7, 8, 65535)))
    elif attr == 2 and kind == "name":
        rows[place] = (attr, stamp, (chance.choice(("", "a", " a", "a\n", "lostandfound", "n" * 129)), chance.choice((1, 2, 16, 17, content[1]))))
    return rows


def decoded(decode, raw):
    """A message, or None where bytes are none."""
    try:
        return decode(raw)
    except (peer.Malformed, peer.WrongVersion):
        return None


def strange_requests(both, count):
    """Spoiled requests: a node answers those that are requests, as the rules say, and hangs up at the others."""
    server, name, chance = Server(both.node, "London", count), "London", both.chance
    refused = 0
    while len(server.due) < count:
        raw = spoiled(chance, peer.encode_request(both.random_request(name)))
        request, before = decoded(peer.decode_request, raw), int(time.time())
        if request is not None and shows_too_much(both.state(name), request):
            continue
        with server.client() as client:
            client.say(peer.REQUEST, raw)
            client.socket.shutdown(socket.SHUT_WR)
            if request is None:
                check("what is no request isn't answered", hung_up(client), raw.hex())
                server.due.append(("0 malformed",))
                refused += 1
            else:
                both.compare_answer(name, request, heard(client), before)
                server.due.append(("1 end",))
    server.finish()
    print(f"of {count} spoiled requests {refused} were none")


def shows_too_much(state, request):
    """Whether a request makes a node quarantine itself."""
    try:
        rules.serve(state, request, 0)
    except rules.Refusal as refusal:
        return refusal.number == 33
    return False


def heard(client):
    """The answer to a request, or what was otherwise."""
    try:
        return client.hear_answer()
    except (peer.BadPeer, peer.Malformed, peer.WrongVersion, OSError) as fault:
        return repr(fault)


def hung_up(client):
    """Whether the peer hangs up, without a byte more."""
    try:
        return client.socket.recv(1) == b""
    except ConnectionResetError:
        return True
    except TimeoutError:
        return False


class Fake:
    """A node that is none: for one connection it plays a part, in a thread of its own."""

    def __init__(self, part):
        self.listener = socket.create_server(("127.0.0.1", free_port()))
        self.listener.settimeout(PATIENCE)
        self.port, self.part, self.fault = self.listener.getsockname()[1], part, None
        self.thread = threading.Thread(target=self.play, daemon=True)
        self.thread.start()

    def play(self):
        try:
            with self.listener, peer.Connection(self.listener.accept()[0]) as line:
                self.part(line)
        except Exception as fault:
            self.fault = repr(fault)

    def tell(self, node, *words, given=b""):
        """What a command tells that meets this node."""
        told = node.run(*words, str(self.port), given=given)
        self.thread.join(PATIENCE)
        check("a fake node plays its part", self.fault is None and not self.thread.is_alive(), (words, told, self.fault))
        return told


def answering(*frames, dsa=0xf0):
    """A part: it says who it is, answers each message by one of these frames, and hangs up behind the next message."""
    def part(line):
        due = [peer.frame(peer.IDENTITY, peer.id_bytes(dsa))] + list(frames)
        for answer in due:
            line.hear(peer.REQUEST, peer.LINE, peer.GREETING)
            line.send_bytes(answer)
        until_end(line)
    return part


def until_end(line):
    """Takes one more message, or the end."""
    try:
        line.hear(peer.REQUEST, peer.LINE, peer.GREETING)
    except (peer.BadPeer, OSError):
        pass


def strange_replies(both, count):
    """Spoiled replies: `pull` takes those that are replies, as the rules say, and ends with 14 at the others."""
    node, chance, source = both.node, both.chance, copy.copy(both.state("London"))
    source.dsa = 0xf0
    node.create("Oslo")
    empty, state = open(node.path("Oslo"), "rb").read(), rules.State(*node.identifiers("Oslo"))
    came = {}
    for number in range(count):
        request = rules.ask(state, 0xf0, 1000)
        most, version = chance.choice((1, 2, 1000, 1000)), chance.choice((1, 2, 2))
        reply = rules.serve(source, request._replace(max=most, version=version), int(time.time()))
        if number % 2:
            raw = peer.encode_reply(changed(chance, reply, state))
        else:
            raw = spoiled(chance, peer.encode_reply(reply))
        message = decoded(peer.decode_reply, raw)
        due = due_of_reply("Oslo", state, message)
        told = Fake(answering(peer.frame(peer.REPLY, raw))).tell(node, "pull", "Oslo")
        check("pull tells of a spoiled reply as the rules say", told == due, (raw.hex(), told, due))
        if due[1].startswith(b"deliver"):
            times = rules.take(state, message)[0].times
            check("and keeps its times", node.times("Oslo") == times, (raw.hex(), node.times("Oslo"), times))
        check("a reply that isn't taken changes nothing", due[1].startswith(b"deliver") or due[1].startswith(b"refused 33")
              or open(node.path("Oslo"), "rb").read() == empty, raw.hex())
        kind = due[0], due[1][:10].decode()
        came[kind] = came.get(kind, 0) + 1
        with open(node.path("Oslo"), "wb") as file:
            file.write(empty)
    print("spoiled replies:", ", ".join(f"{status} {told!r} {times}" for (status, told), times in sorted(came.items())))


def due_of_reply(name, state, reply):
    """What `pull` has to tell of a reply to its first request, where nothing comes behind it."""
    if reply is None:
        return 14, b""
    try:
        after, wrote = rules.take(state, reply)
    except rules.Refusal as refusal:
        return 9, (refusal.text() + "\n").encode()
    line = f"deliver {name}: ok items={len(reply.items)} wrote={wrote} usn={after.usn}\n".encode()
    return (14 if reply.last is None else 0), line


def refusing_peers(node):
    """Each refusal that a node may be given, told by `pull`."""
    node.create("Bergen")
    for message, _, encode, _ in peer.example_messages():
        if isinstance(message, rules.Refusal):
            told = Fake(answering(peer.frame(peer.REFUSAL, encode(message)))).tell(node, "pull", "Bergen")
            check("pull tells a refusal", told == (9, (message.text() + "\n").encode()), (message.text(), told))


def silent_part(*frames):
    """A part: for each message a front of bytes, and then the end."""
    def part(line):
        for some in frames:
            line.hear(peer.REQUEST, peer.LINE, peer.GREETING)
            line.send_bytes(some)
    return part


def bad_peers(node):
    """Servers that are rude to `pull` and `send`."""
    node.create("Turku")
    identity = peer.frame(peer.IDENTITY, peer.id_bytes(0xf0))
    for some in (b"", b"\0\0", bytes(4), b"\0\x80\0\1", b"\0\0\0\5\7abc", peer.frame(peer.IDENTITY, bytes(15)), peer.frame(peer.IDENTITY, bytes(17)),
                 peer.frame(peer.ANSWER, b"bad line"), peer.frame(9), peer.frame(0), peer.frame(peer.GREETING)):
        told = Fake(silent_part(some)).tell(node, "pull", "Turku")
        check("pull ends with 14 at a bad greeting", told == (14, b""), (some, told))
    for some in (b"", b"\0\0", bytes(4), b"\0\x80\0\1", b"\0\0\1\5\2abc", peer.frame(peer.REPLY), peer.frame(peer.REFUSAL), identity,
                 peer.frame(peer.REQUEST), peer.frame(peer.REFUSAL, b"ADRF\0\1\x15"), peer.frame(peer.REFUSAL, b"ADRF\0\2\x17"),
                 peer.frame(peer.REFUSAL, b"ADRF\0\1\x17x"), peer.frame(peer.ANSWER, b"add: ok usn=1")):
        told = Fake(silent_part(identity, some)).tell(node, "pull", "Turku")
        check("pull ends with 14 at a bad answer", told == (14, b""), (some, told))
    for some in (b"", b"\0\0", bytes(4), b"\0\x80\0\1", b"\0\0\1\5\5abc", peer.frame(peer.ANSWER), peer.frame(peer.ANSWER, b"bad line"), identity,
                 peer.frame(peer.ANSWER, b"delete: ok usn=1\n"), peer.frame(peer.ANSWER, b"add: ok usn=1"),
                 peer.frame(peer.ANSWER, b"delete: refused"), peer.frame(peer.ANSWER, b" delete: ok"), peer.frame(peer.REFUSAL, b"ADRF\0\1\x17")):
        told = Fake(silent_part(some)).tell(node, "send", given=b"delete #11")
        check("send ends with 14 at a bad answer", told == (14, b""), (some, told))
    kept = peer.frame(peer.ANSWER, b"delete: ok usn=1"), peer.frame(peer.ANSWER, b"delete: refused 23 Quarantined")
    told = Fake(silent_part(*kept)).tell(node, "send", given=b"delete #11\ndelete #12\n\ndelete #13\n")
    check("send has written what came before", told[0] in (7, 14) and told[1] == b"delete: ok usn=1\ndelete: refused 23 Quarantined\n", told)
    node.expect(["show", "Turku"], 0, b"show Turku: 0\n")


# --- over TCP: clients that are rude --------------------------------------------------------------------------------
GREETED = peer.frame(peer.GREETING)
# what a client sends, how many answers it gets, and how its connection ends
RUDE = [
    (b"", 0, "end"), (GREETED, 1, "end"), (GREETED * 5, 5, "end"), (b"\0\0", 0, "malformed"), (b"\0\0\0\5\4ab", 0, "malformed"),
    (bytes(4), 0, "malformed"), (bytes(5), 0, "malformed"), (b"\0\x80\0\1" + bytes(100), 0, "malformed"), (b"\xff" * 4, 0, "malformed"),
    (b"\0\x80\0\0\6", 0, "malformed"), (b"GET / HTTP/1.1\r\n\r\n", 0, "malformed"), (GREETED + b"rubbish, rubbish", 1, "malformed"),
    (peer.frame(peer.GREETING, b"x"), 0, "malformed"), (peer.frame(peer.LINE, b"delete #11\n"), 0, "malformed"),
    (peer.frame(peer.LINE, b" " * 65537), 0, "malformed"), (peer.frame(peer.LINE, b" " * 65536), 1, "end"),
    (peer.frame(peer.LINE, b"\xff" * 65536) * 2 + GREETED, 3, "end"), (peer.frame(peer.LINE), 1, "end"),
    (peer.frame(peer.LINE, bytes(8 * 1024 * 1024 - 1)), 0, "malformed"), (peer.frame(peer.REQUEST, bytes(8 * 1024 * 1024 - 1)), 0, "malformed"),
    (peer.frame(peer.REQUEST), 0, "malformed"), (peer.frame(peer.REQUEST, b"ADRQ\0\2"), 0, "malformed"),
    (peer.frame(peer.REQUEST, b"ADRQ\0\3" + bytes(84)), 0, "malformed"), (peer.frame(peer.LINE, b"upgrade London"), 1, "end"),
    (GREETED + bytes(4) + GREETED, 1, "malformed"),
] + [(peer.frame(kind, bytes(16)) + GREETED, 0, "malformed") for kind in (0, 2, 3, 5, 7, 8, 9, 255)]


def rude_clients(node):
    """What is no message ends a connection, and the next one is served."""
    node.create("Bonn")
    server = Server(node, "Bonn", len(RUDE) + 5)
    before = memory_of(server.process)
    for raw, answers, end in RUDE:
        with server.client() as client:
            send_quietly(client, raw)
            got = [front(client) for _ in range(answers)]
            check("what is a message is answered, and what is none isn't", hung_up(client) and None not in got, (raw[:20], got))
            server.due.append((f"{answers} {end}",))
    with server.client() as client:
        for place in range(len(GREETED * 2)):
            client.send_bytes((GREETED * 2)[place:place + 1])
            time.sleep(0.002)
        check("bytes may come one by one", [client.hear(peer.IDENTITY)[0] for _ in range(2)] == [7, 7])
        server.due.append(("2 end",))
    with server.client() as client:
        client.send_bytes(peer.number_bytes(peer.FRAME_MOST, 4) + b"\4ab")
        time.sleep(0.05)
        server.due.append(("0 malformed", "0 fault"))
    after = memory_of(server.process)
    check("no memory is taken for what a length promises", after - before < 40000, (before, after))
    with server.client() as client:
        client.send_bytes(GREETED * 3)
        client.socket.setsockopt(socket.SOL_SOCKET, socket.SO_LINGER, b"\1\0\0\0\0\0\0\0")
        server.due.append(tuple(f"{count} {end}" for count in range(4) for end in ("end", "fault")))
    many_lines(server)
    with server.client() as client:
        check("and the next connection is served", client.greet() == peer.id_bytes(node.identifiers("Bonn")[0]))
        server.due.append(("1 end",))
    server.finish()


def send_quietly(client, raw):
    """Sends bytes to a server that may have hung up, and no more than these."""
    try:
        client.send_bytes(raw)
        client.socket.shutdown(socket.SHUT_WR)
    except OSError:
        pass


def front(client):
    """The next frame, or none."""
    try:
        return client.hear(peer.ANSWER, peer.IDENTITY)
    except (peer.BadPeer, OSError):
        return None


def many_lines(server, count=200):
    """Many lines in one packet are answered in their order."""
    lines = [f'add #{number:x} container #1 "c {number}"'.encode() for number in range(16, 16 + count)]
    with server.client() as client:
        client.send_bytes(b"".join(peer.frame(peer.LINE, line) for line in lines))
        answers = [client.hear_line(line) for line in lines]
        check("many lines in one packet are answered in order", answers == [f"add: ok usn={usn}" for usn in range(1, count + 1)], answers[:5])
        server.due.append((f"{count} end",))


def memory_of(process):
    """The most memory that a process had so far, in KiB; 0 where it has ended."""
    with open(f"/proc/{process.pid}/status") as file:
        told = re.search(r"VmHWM:\s+(\d+)", file.read())
    return int(told.group(1)) if told else 0


def flushed(program, count=200):
    """Before each answer the record and its gate are written, each with a sync that passed: by the system's calls, as strace tells them."""
    if shutil.which("strace") is None:
        print("no flushes were counted: there is no strace")
        return
    with tempfile.TemporaryDirectory() as folder:
        node, trace = Node(program, folder), f"{folder}/calls"
        node.create("Lima")
        traced = Node("strace", folder)
        server = Server(node, "Lima", 1, ("-f", "-o", trace, "-e", "trace=pwrite64,fsync,fdatasync,sendto,write", program), traced)
        many_lines(server, count)
        server.finish()
        calls, shapes = [], []
        for line in open(trace):
            called = re.match(r"\d+ +(\w+)\((.*) = (-?\d+)", line)
            if called and called[1] in ("pwrite64", "fsync", "fdatasync"):
                calls.append("write" if called[1] == "pwrite64" else "sync" if called[3] == "0" else "failed")
            elif called and "add: ok" in called[2]:
                shapes.append(calls)
                calls = []
        check("each answer was traced", len(shapes) == count, len(shapes))
        for shape in shapes:
            check("an answer comes behind two writes, each with a sync", shape[-4:] == ["write", "sync"] * 2 and "failed" not in shape, shape)


def put_back(program, chance):
    """A client that has seen more than there is: the node quarantines itself, and stays so."""
    with tempfile.TemporaryDirectory() as folder:
        both = Both(Node(program, folder), chance)
        node = both.node
        server = Server(node, "London", 3)
        with server.client() as client:
            for _ in range(10):
                both.say(client, "London")
            state = both.state("London")
            both.ask(client, "London", rules.Request(1, state.dsa, 0, rules.ZERO, state.schema, 5, {state.inv: state.usn + 1}))
            both.ask(client, "London", both.random_request("London"))
            for _ in range(5):
                both.say(client, "London")
            server.due.append((f"{client.said} end",))
        both.pull(server, "Paris")
        server.send(b"collect 0\n", 9, b"collect: refused 23 Quarantined\n")
        server.finish()
        node.expect(["backup", "London"], 9, b"refused 23 Quarantined\n")
        both.compare_shown()
        server = Server(node, "London", 1)
        both.pull(server, "Paris")
        server.finish()
        server = Server(node, "Paris", 1)
        both.pull(server, "London")
        server.finish()


def slow_trials(node):
    """A client that stalls for longer than a server waits, and a connection of a million messages."""
    node.create("Slow")
    server = Server(node, "Slow", 4)
    with server.client() as stalls:
        stalls.send_bytes(b"\0\0")
        begun = time.monotonic()
        check("a server hangs up at a client that stalls", hung_up(stalls), "")
        check("it waits for a minute", 59 < time.monotonic() - begun < 65, time.monotonic() - begun)
        server.due.append(("0 fault",))
    with server.client() as client:
        check("and the next connection is served", len(client.greet()) == 16)
        server.due.append(("1 end",))
    with server.client() as client:
        sender = threading.Thread(target=send_quietly, args=(client, GREETED * MESSAGES_MOST), daemon=True)
        sender.start()
        answers = sum(front(client) is not None for _ in range(MESSAGES_MOST))
        check("a million messages are answered", answers == MESSAGES_MOST, answers)
        check("and no more", hung_up(client))
        sender.join(PATIENCE)
        server.due.append((f"{MESSAGES_MOST} limit",))
    with server.client() as client:
        check("and the next connection is served", len(client.greet()) == 16)
        server.due.append(("1 end",))
    server.finish()
    told = Fake(lambda line: time.sleep(62)).tell(node, "pull", "Slow")
    check("pull ends with 7 where a partner stalls", told == (7, b""), told)


# --- over TCP: meshes whose processes are killed --------------------------------------------------------------------
def guid_text(number):
    return rules.full_id(number)


class Mesh:
    """Nodes whose processes are killed. Each has a ledger of the objects that it made: what was acknowledged of them."""

    def __init__(self, node, names, chance):
        self.node, self.names, self.chance = node, names, chance
        self.ledgers = {name: {} for name in names}
        self.made, self.serial, self.came = 0, 0, {}
        # seconds that a line and a pull took of late
        self.pace, self.pull_pace = 0.002, 0.02
        node.create(*names)
        self.share()

    def share(self):
        """Two objects that all write to."""
        server = Server(self.node, self.names[0], len(self.names))
        server.send(b'add #11 user #1 "Shared" sAMAccountName="s"\nadd #12 group #1 "Team" groupType=2\n', 0, b"add: ok usn=1\nadd: ok usn=2\n")
        for name in self.names[1:]:
            server.pull(name, 0, f"deliver {name}: ok items=2 wrote=2 usn=2\n".encode())
        server.finish()

    def owner_of(self, guid):
        """The name of the node that made an object; none of those that all write to."""
        number = int(guid.replace("-", ""), 16) >> 32
        return self.names[number - 1] if number else None

    def own_view(self, name):
        """The entries of a node's own objects: name and values."""
        view = self.node.view(name)
        return {guid: (entry["name"], entry["values"]) for guid, entry in view.items() if self.owner_of(guid) == name}

    def new_line(self, name, ledger):
        """A line that is accepted where this is the ledger, and the ledger behind it."""
        chance, kind = self.chance, self.chance.choice(("add", "add", "modify", "modify", "rename", "delete", "shared", "link"))
        self.serial += 1
        guid = chance.choice(sorted(ledger)) if ledger else None
        after = dict(ledger)
        if guid is None or kind == "add":
            self.made += 1
            number = (self.names.index(name) + 1) << 32 | self.made
            guid, title, values = guid_text(number), f"U {number:x}", {"description": [f"d{self.serial}", "e"], "sAMAccountName": [f"u{self.made}"]}
            after[guid] = (title, values)
            return f'add #{guid} user #1 "{title}" sAMAccountName="u{self.made}" description="d{self.serial}","e"', after
        title, values = ledger[guid]
        if kind == "modify":
            after[guid] = (title, dict(values, description=[f"d{self.serial}"], mail=[f"m{self.serial}"]))
            return f'modify #{guid} description="d{self.serial}" mail="m{self.serial}"', after
        if kind == "rename":
            title = f"U {guid} {self.serial}"
            after[guid] = (title, values)
            return f'rename #{guid} #1 "{title}"', after
        if kind == "delete":
            del after[guid]
            return f"delete #{guid}", after
        if kind == "shared":
            return f'modify #11 displayName="{self.serial} at {name}" telephoneNumber="{self.serial}"', after
        self.made += 1
        number = (self.names.index(name) + 1) << 32 | self.made
        after[guid_text(number)] = (f"U {number:x}", {"sAMAccountName": ["l"]})
        return f'add #{guid_text(number)} user #1 "U {number:x}" sAMAccountName="l"', after

    def new_lines(self, name, count):
        """Lines, and the ledgers before them and behind each."""
        lines, ledgers = [], [self.ledgers[name]]
        for _ in range(count):
            line, ledger = self.new_line(name, ledgers[-1])
            lines.append(line)
            ledgers.append(ledger)
        return lines, ledgers

    def settle(self, name, what, ledgers, least, most):
        """Compares a node's own objects with the ledgers behind so many lines and no more, and goes on from the one that it has."""
        view = self.own_view(name)
        fits = [number for number in range(least, most + 1) if ledgers[number] == view]
        told = (name, least, most, [guid for guid in set(view) | set(ledgers[least]) if view.get(guid) != ledgers[least].get(guid)])
        if check(f"{what}: what was acknowledged is there, at most the next line besides, and none by half", fits, told):
            self.ledgers[name] = ledgers[fits[0]]
            self.count(what, "none more" if fits[0] == least else "more")
        else:
            self.ledgers[name] = view

    def count(self, what, kind):
        self.came[what, kind] = self.came.get((what, kind), 0) + 1

    def sent(self, name, status, answers, lines):
        """How many lines `send` says are done."""
        done = answers.decode().splitlines()
        is_so = all(re.fullmatch(f"{line.split()[0]}: ok usn=[1-9][0-9]*", answer) for line, answer in zip(lines, done))
        check("lines are accepted", is_so and len(done) <= len(lines) and answers.endswith(b"\n" if answers else b""), (name, status, answers[-200:]))
        check("send ends with 0 where all was done, and else with 7 or 14", status == 0 if len(done) == len(lines) else status in (7, 14),
              (name, status, len(done), len(lines)))
        return len(done)

    def pause(self, sender, lines):
        """Waits until a random moment of the time that so many lines take."""
        wait_for_lines(sender, self.chance.randint(0, lines))
        time.sleep(self.chance.uniform(0, 1.5 * self.pace))

    def send_quietly(self, name):
        lines, ledgers = self.new_lines(name, self.chance.randint(1, 30))
        server = Server(self.node, name, 1)
        begun = time.monotonic()
        done = self.sent(name, *self.node.run("send", str(server.port), given="\n".join(lines).encode()), lines)
        self.pace = 0.7 * self.pace + 0.3 * (time.monotonic() - begun) / len(lines)
        server.due.append((f"{len(lines)} end",))
        server.finish()
        self.settle(name, "a quiet send", ledgers, done, done)

    def kill_server(self, name):
        """`serve` is killed while lines come."""
        lines, ledgers = self.new_lines(name, self.chance.randint(1, 40))
        server = Server(self.node, name, 1)
        sender = self.node.start("send", str(server.port), given="\n".join(lines).encode())
        self.pause(sender, len(lines))
        server.kill()
        done = self.sent(name, *ended(sender), lines)
        self.count("a killed server", "within" if 0 < done < len(lines) else "outside")
        self.settle(name, "a killed server", ledgers, done, min(done + 1, len(lines)))

    def kill_sender(self, name):
        """`send` is killed; the server goes on."""
        lines, ledgers = self.new_lines(name, self.chance.randint(1, 40))
        server = Server(self.node, name, 2)
        sender = self.node.start("send", str(server.port), given="\n".join(lines).encode())
        self.pause(sender, len(lines))
        done = killed(sender).count(b"\n")
        with server.client() as client:
            check("a server outlives a killed client", len(client.greet()) == 16)
        written = server.kill()
        check("a killed client has hung up", not written or re.match(rb"connection 1: \d+ (end|fault)\n", written), written)
        self.settle(name, "a killed client", ledgers, done, min(done + 1, len(lines)))

    def kill_flooded(self, name):
        """A server is killed that has many lines before it."""
        lines, ledgers = self.new_lines(name, self.chance.randint(2, 40))
        server = Server(self.node, name, 1)
        with server.client() as client:
            client.send_bytes(b"".join(peer.frame(peer.LINE, line.encode()) for line in lines))
            done, wanted = 0, self.chance.randint(0, len(lines))
            while done < wanted and front(client) is not None:
                done += 1
            time.sleep(self.chance.uniform(0, 3 * self.pace))
            server.kill()
            while done < len(lines) and front(client) is not None:
                done += 1
        self.count("a killed server with many lines before it", "within" if 0 < done < len(lines) else "outside")
        self.settle(name, "a killed server with many lines before it", ledgers, done, len(lines))

    def came_by_pull(self, dest, source, before):
        """A node has its own objects as before, and each other as before or as its partner has it."""
        self.settle(dest, "a pull", [self.ledgers[dest]], 0, 0)
        after, given = self.node.view(dest), self.node.view(source)
        bad = [guid for guid in set(before) | set(after) if self.owner_of(guid) not in (dest, None)
               and plain(after.get(guid)) not in (plain(before.get(guid)), plain(given.get(guid)))]
        check("each object comes whole or not at all", not bad, (dest, source, bad))

    def pull_quietly(self, dest, source):
        before, server = self.node.view(dest), Server(self.node, source, 1)
        begun = time.monotonic()
        status, written = self.node.run("pull", dest, str(server.port))
        self.pull_pace = 0.7 * self.pull_pace + 0.3 * (time.monotonic() - begun)
        is_so = re.fullmatch(rb"(deliver \w+: ok items=\d+ wrote=\d+ usn=\d+\n)+", written)
        check("a quiet pull ends with 0", status == 0 and is_so, (status, written))
        server.due.append((f"{1 + written.count(10)} end",))
        server.finish()
        self.came_by_pull(dest, source, before)

    def kill_pull(self, dest, source):
        """`pull` is killed; its partner goes on."""
        before, server = self.node.view(dest), Server(self.node, source, 2)
        puller = self.node.start("pull", dest, str(server.port))
        time.sleep(self.chance.uniform(0, 1.2 * self.pull_pace))
        written = killed(puller)
        self.count("a killed pull", "told" if written else "not told")
        with server.client() as client:
            check("a server outlives a killed client", len(client.greet()) == 16)
        server.kill()
        self.keeps_usn(dest, written)
        self.came_by_pull(dest, source, before)

    def kill_source(self, dest, source):
        """`serve` is killed while another node pulls from it."""
        before, server = self.node.view(dest), Server(self.node, source, 1)
        puller = self.node.start("pull", dest, str(server.port))
        time.sleep(self.chance.uniform(0, 1.2 * self.pull_pace))
        server.kill()
        status, written = ended(puller)
        check("pull ends with 0, 7 or 14 where its partner is killed", status in (0, 7, 14), (status, written))
        self.keeps_usn(dest, written)
        self.settle(source, "a killed source", [self.ledgers[source]], 0, 0)
        self.came_by_pull(dest, source, before)

    def keeps_usn(self, name, written):
        """What `pull` told of is kept."""
        told = re.findall(rb"usn=(\d+)\n", written)
        _, image = self.node.run("backup", name)
        kept = int.from_bytes(image[10:18], "big")
        check("what a pull told is kept", not told or kept >= int(told[-1]), (name, kept, written))

    def round(self):
        name, other = self.chance.sample(self.names, 2)
        of_one = ["send_quietly", "kill_sender", "kill_flooded"] + ["kill_server"] * 3
        of_two = ["kill_source"] + ["pull_quietly", "kill_pull"] * 2
        what = self.chance.choice(of_one + of_two)
        getattr(self, what)(*((name,) if what in of_one else (name, other)))

    def bring_together(self):
        """Quiet pulls of each node from each other, twice."""
        for dest, source in list(itertools.permutations(self.names, 2)) * 2:
            self.pull_quietly(dest, source)
        equal_exports(self.node, *self.names)
        view = self.node.view(self.names[0])
        due = {guid: entry for ledger in self.ledgers.values() for guid, entry in ledger.items()}
        told = {guid: (entry["name"], entry["values"]) for guid, entry in view.items() if self.owner_of(guid)}
        check("in the end all nodes have what was acknowledged at any", told == due, set(told) ^ set(due))


def plain(entry):
    """What of an entry comes in one item."""
    return entry and (entry["name"], entry["values"])


def meshes(program, chance, rounds):
    for names in (("London", "Paris"), ("London", "Paris", "Rome")):
        with tempfile.TemporaryDirectory() as folder:
            mesh = Mesh(Node(program, folder), names, chance)
            for _ in range(rounds):
                mesh.round()
            mesh.bring_together()
            told = ", ".join(f"{what} {kind}: {count}" for (what, kind), count in sorted(mesh.came.items()))
            print(f"mesh of {len(names)}, {rounds} rounds, {mesh.serial} lines, {1000 * mesh.pace:.2f} ms a line; {told}")


# --- over TCP: pulls of many replies --------------------------------------------------------------------------------
def image_of(count, inv=0xe1):
    """The image of a database with so many users, each added by a write of its own."""
    objects = []
    for number in range(1, count + 1):
        stamp = rules.Stamp(1, 1000, inv, number)
        rows = [(1, stamp, 5), (2, stamp, (f"User {number}", 1)), (10, stamp, [("text", f"u{number}")])]
        raw = b"".join(peer.number_bytes(number, 8) + peer.row_bytes(row) for row in rows)
        objects.append(peer.oid_bytes(rules.Oid(0x10000 + number, inv, number)) + peer.number_bytes(3, 2) + raw)
    return (b"ADIM\0\1\0\0\0\1" + peer.number_bytes(count, 8) + peer.vector_bytes({inv: count}) + peer.vector_bytes({}) + bytes(4)
            + peer.number_bytes(count, 4) + b"".join(objects) + bytes(4))


def killed_pulls(program, chance, rounds, count=3500):
    """`pull` is killed while many replies are taken: those that it told of are kept, at most the next besides, and none by half."""
    with tempfile.TemporaryDirectory() as folder:
        node = Node(program, folder)
        node.expect(["install", "Source"], 0, b"install Source: ok\n", given=image_of(count))
        replies = -(-count // 1000)
        sizes = [min(1000, count - at) for at in range(0, count, 1000)]
        lines = [f"deliver K: ok items={size} wrote={size} usn={usn}\n" for size, usn in zip(sizes, itertools.accumulate(sizes))]
        node.create("K")
        server, begun = Server(node, "Source", 1), time.monotonic()
        server.pull("K", 0, "".join(lines).encode(), replies)
        took = time.monotonic() - begun
        server.finish()
        equal_exports(node, "Source", "K")
        kept = {}
        for _ in range(rounds):
            os.remove(node.path("K"))
            node.create("K")
            server = Server(node, "Source", 1)
            puller = node.start("pull", "K", str(server.port))
            wait_for_lines(puller, chance.randint(0, replies - 1))
            time.sleep(chance.uniform(0, 1.5 * took / replies))
            written = killed(puller).decode()
            server.kill()
            told = written.count("\n")
            check("a pull tells its replies in order", written == "".join(lines[:told]), written)
            _, shown = node.run("show", "K")
            number = int(shown.partition(b": ")[2].partition(b"\n")[0] or b"-1")
            allowed = [min(count, 1000 * done) for done in (told, told + 1)]
            check("a killed pull keeps what it told, at most the next reply besides", number in allowed, (told, number))
            kept[told, number] = kept.get((told, number), 0) + 1
        server = Server(node, "Source", 1)
        status, written = node.run("pull", "K", str(server.port))
        check("a pull goes on behind a killed one", status == 0, (status, written))
        server.kill()
        equal_exports(node, "Source", "K")
        times = ", ".join(f"{told} {number}: {times}" for (told, number), times in sorted(kept.items()))
        print(f"killed pulls of {replies} replies, replies told and objects kept: {times}")


def full_while_served(program):
    """A file system that is full while lines come, and while a reply is taken."""
    folder = tempfile.mkdtemp()
    if subprocess.run(["mount", "-t", "tmpfs", "-o", "size=64k", "tmpfs", folder], capture_output=True).returncode:
        os.rmdir(folder)
        print("no full file system was tried over TCP: nothing could be mounted")
        return
    try:
        node = Node(program, folder)
        node.create("Full", "Other")
        lines = "".join(f'add #{number:x} container #1 "c {number}" description="{"x" * 200}"\n' for number in range(16, 416))
        server = Server(node, "Full", 1)
        status, answers = node.run("send", str(server.port), given=lines.encode())
        check("send ends with 7 or 14 where the server's disk is full", status in (7, 14), status)
        told, written = ended(server.process)
        check("serve ends with 6 where its disk is full", (told, written) == (6, b""), (told, written))
        done = answers.count(b"\n")
        due = "".join(f"add: ok usn={usn}\n" for usn in range(1, done + 1)).encode()
        check("some lines were done before", answers == due and 0 < done < 400, answers[-50:])
        status, shown = node.run("show", "Full")
        check("behind a full disk what was acknowledged is there, at most one line besides",
              status == 0 and shown.count(b"\n") - 1 in (done, done + 1), (status, done, shown[:80]))
        server = Server(node, "Full", 1)
        told = node.run("pull", "Other", str(server.port))
        check("pull ends with 6 where its disk is full", told == (6, b""), told)
        killed(server.process)
        node.expect(["show", "Other"], 0, b"show Other: 0\n")
    finally:
        subprocess.run(["umount", folder])
        os.rmdir(folder)


# --- figures --------------------------------------------------------------------------------------------------------
# in how many turns the writes and the flushes alone are measured, one behind the other: a disk's pace changes within seconds
TURNS = 10


def two_flushes(folder, count):
    """The seconds of so many commits of a file alone: two writes, each with a sync."""
    path = f"{folder}/flushes"
    file = os.open(path, os.O_RDWR | os.O_CREAT, 0o600)
    begun, end = time.monotonic(), os.fstat(file).st_size
    for _ in range(count):
        os.pwrite(file, b"x" * 200, end)
        os.fsync(file)
        os.pwrite(file, b"x", max(end - 1, 0))
        os.fsync(file)
        end += 200
    took = time.monotonic() - begun
    os.close(file)
    return took


def spread(count, seconds):
    """So many a second: of all turns, and of the slowest and the fastest."""
    return f"{count * len(seconds) / sum(seconds):.0f} a second (turns from {count / max(seconds):.0f} to {count / min(seconds):.0f})"


def timed(node, *words, given=b""):
    """A command's seconds, and the most memory that it had, in MiB, by looks every two milliseconds."""
    with tempfile.TemporaryFile() as file:
        file.write(given)
        file.seek(0)
        begun, most = time.monotonic(), 0
        process = subprocess.Popen([node.program, *words], cwd=node.folder, stdin=file, stdout=subprocess.DEVNULL)
        running.add(process)
        while process.poll() is None:
            most = max(most, memory_of(process))
            time.sleep(0.002)
        took = time.monotonic() - begun
    running.discard(process)
    check(f"{words[0]} is done", process.returncode == 0, process.returncode)
    return took, most / 1024


def figures(program, count, folder):
    node = Node(program, folder)
    node.create("Source", "Dest")
    server, each = Server(node, "Source", TURNS + 2), max(1, count // TURNS)
    sending, alone, send_memory = [], [], 0
    for first in range(0, each * TURNS, each):
        lines = (f'add #{0x10000 + number:x} user #1 "User {number}" sAMAccountName="u{number}"\n' for number in range(first, first + each))
        took, memory = timed(node, "send", str(server.port), given="".join(lines).encode())
        sending.append(took)
        alone.append(two_flushes(folder, each))
        send_memory = max(send_memory, memory)
    serve_memory, count = memory_of(server.process) / 1024, each * TURNS
    pulling, pull_memory = timed(node, "pull", "Dest", str(server.port))
    both_memory = memory_of(server.process) / 1024
    server.client().close()
    ended(server.process)
    equal_exports(node, "Source", "Dest")
    print(f"writes by send of {count} lines in {TURNS} turns: {spread(each, sending)}")
    print(f"two flushes a commit alone, in turn with them: {spread(each, alone)}")
    print(f"objects by pull into an empty node: {count / pulling:.0f} a second, {pulling:.3f} s in all")
    print(f"memory: send {send_memory:.0f} MiB, serve of lines {serve_memory:.0f} MiB, serve of lines and of a pull {both_memory:.0f} MiB, "
          f"pull {pull_memory:.0f} MiB; Source.adr {os.path.getsize(node.path('Source')) / 2**20:.1f} MiB, "
          f"Dest.adr {os.path.getsize(node.path('Dest')) / 2**20:.1f} MiB")


def over_files(told):
    chance = random.Random(told.seed)
    with tempfile.TemporaryDirectory() as folder:
        node = Node(told.program, folder)
        walk(node)
        no_files(node)
        if os.path.exists(told.killed):
            image = with_objects(node, told.killed)
        else:
            print(f"no controller with objects was tried over files: there is no {told.killed}")
            image = image_of(300)
        killed_while_made(node, image, told.rounds, chance)
        kept_out(node)
        failing_output(node)
    full_device(told.program)


def over_tcp(told):
    with tempfile.TemporaryDirectory() as folder:
        node = Node(told.program, folder)
        two_nodes(node)
        nobody_there(node)
        refusing_peers(node)
        bad_peers(node)
        rude_clients(node)
    flushed(told.program)
    put_back(told.program, random.Random(told.seed))
    full_while_served(told.program)
    if told.slow:
        with tempfile.TemporaryDirectory() as folder:
            slow_trials(Node(told.program, folder))


def by_the_rules(told):
    compared(told.program, random.Random(told.seed), max(1, told.rounds // 20))


def spoiled_messages(told):
    with tempfile.TemporaryDirectory() as folder:
        both = Both(Node(told.program, folder), random.Random(told.seed))
        both.round(40)
        strange_requests(both, min(1000, told.rounds))
        strange_replies(both, told.rounds)


def in_meshes(told):
    meshes(told.program, random.Random(told.seed), told.rounds)
    killed_pulls(told.program, random.Random(told.seed), max(1, told.rounds // 10))


PARTS = {"files": over_files, "tcp": over_tcp, "rules": by_the_rules, "spoiled": spoiled_messages, "meshes": in_meshes}


def try_all(told):
    for part in told.only or PARTS:
        begun = time.monotonic()
        try:
            PARTS[part](told)
        except Exception:
            found.append(f"{part} ended early: {traceback.format_exc()[-1500:]}")
        kill_all()
        print(f"{part}: {time.monotonic() - begun:.1f} s")


def main():
    parser = argparse.ArgumentParser()
    parser.add_argument("--program", default=f"{TOP}/crates/adrep/out/adrep")
    parser.add_argument("--killed", default=f"{TOP}/crates/adr_test_killed/out/adr_test_killed")
    parser.add_argument("--rounds", type=int, default=200)
    parser.add_argument("--seed", type=int, default=1)
    parser.add_argument("--only", nargs="+", choices=PARTS)
    parser.add_argument("--slow", action="store_true")
    parser.add_argument("--figures", type=int)
    parser.add_argument("--folder")
    told = parser.parse_args()
    told.program, told.killed = os.path.abspath(told.program), os.path.abspath(told.killed)
    for _ in range(random.randrange(len(PORTS))):
        next(free_ports)
    try:
        if told.figures:
            with tempfile.TemporaryDirectory(dir=told.folder) as folder:
                figures(told.program, told.figures, folder)
        else:
            try_all(told)
    finally:
        kill_all()
    for what, count in tried.items():
        print(f"{what}: {count}")
    for what in found[:20]:
        print(f"NOT SO: {what[:2000]}")
    sys.exit(1 if found else 0)


if __name__ == "__main__":
    main()
