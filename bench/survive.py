#!/usr/bin/env python3
"""Kills a controller on a file at random moments and starts it again: nothing that it acknowledged may be lost, and nothing half done be shown.

Usage: bench/survive.py [--rounds N] [--checkpoints N] [--seed N]

A round starts `adr_test_killed run`, which adds objects one by one and tells each as soon as it is acknowledged, and kills
the process (SIGKILL) within 30 ms, or behind a random number of lines. Then `adr_test_killed show` has to tell all that was
acknowledged, at most one object more (that of the write under way), no other, and the USN of the last one. The next round
goes on behind these. Each hundred rounds new files are begun, and the processes that format them are killed as well.

Then a log is filled until its next write has to write it anew, and copies of it are killed at about that write.

Each file is read by `bench/read_log.py`, which knows the formats from their description alone; and last a small
log, with one area and with two, is cut at every place and changed at every byte: that reader and the program must find the
same, or damage at the same place.

A kill takes the process and nothing that the kernel has, so this is no power failure. What that may leave is what the
proofs speak of, over any disk; what is tried here is what they take as given, that a file is one.
"""
import argparse
import itertools
import os
import random
import shutil
import subprocess
import sys
import tempfile
import time

import read_log

TOP = os.path.dirname(os.path.dirname(os.path.abspath(__file__)))
PROGRAM = f"{TOP}/crates/adr_test_killed/out/adr_test_killed"
ROUNDS_OF_FILE = 100
FORMATS_OF_FILE = 10
# Of the kills while a log is written anew.
KILLS_OF_LOG = 25
KILLS_OF_FILE = 75
# More than a process adds before it is killed.
MANY = 100_000
# What the records of an area may exceed its image by.
RECORDS_MORE = 65_536
# The high half of the GUIDs of the objects.
OBJECTS = bytes.fromhex("6f626a6563747300")
SMALL = 4


def lost(what, told):
    sys.exit(f"survive: {what}: {told}; the files are kept")


def lines_of(text):
    """The whole lines of what was read; a kill may have cut the last one."""
    return text.decode().split("\n")[:-1]


def described(data):
    """What the other reader finds in a log, as `show` tells it: its status and its lines."""
    try:
        state, _ = read_log.read_log(data)
    except read_log.Damaged as fault:
        return 3, [f"damaged {fault.place}"]
    live = {oid[0] for oid in state.objects if not state.is_dead(oid)}
    numbers = sorted(int.from_bytes(guid[8:], "big") for guid in live if guid[:8] == OBJECTS)
    return 0, [str(number) for number in numbers] + [f"usn {state.usn}"]


class Killed:
    """A process that is killed, with the lines that it told before, and how it ended: None where it was killed."""

    count = 0

    def __init__(self, folder, words, chance, soon=False):
        process = subprocess.Popen([PROGRAM, *words], cwd=folder, stdout=subprocess.PIPE)
        read = b""
        if soon:
            read += process.stdout.readline()
            time.sleep(chance.uniform(0, 0.002))
        elif chance.random() < 0.5:
            time.sleep(chance.uniform(0, 0.03))
        else:
            for _ in range(chance.randint(1, 20)):
                read += process.stdout.readline()
            time.sleep(chance.choice([0, chance.uniform(0, 0.001)]))
        process.kill()
        read += process.stdout.read()
        process.stdout.close()
        status = process.wait()
        self.lines = lines_of(read)
        self.status = None if status < 0 else status
        Killed.count += self.status is None


class File:
    """A controller's file, and how many objects are in it."""

    def __init__(self, folder, name):
        self.folder, self.name, self.objects = folder, name, 0
        self.path = f"{folder}/{name}.adr"

    def show(self):
        """What a start finds."""
        shown = subprocess.run([PROGRAM, "show", self.name], cwd=self.folder, stdout=subprocess.PIPE, check=False)
        return shown.returncode, lines_of(shown.stdout)

    def compare(self, what):
        """The other reader has to find the same in it."""
        with open(self.path, "rb") as file:
            data = file.read()
        shown, wanted = self.show(), described(data)
        if shown != wanted:
            lost(f"the program and the other reader differ on {what}", (shown[0], shown[1][-1:], wanted[0], wanted[1][-1:]))
        return data

    def format(self, chance):
        """Formats it, by processes that are killed until one leaves a log; how many left none."""
        for unfinished in itertools.count():
            process = Killed(self.folder, ["new", self.name], chance)
            status, lines = self.show()
            if status == 0:
                if lines != ["usn 0"]:
                    lost("a new controller isn't empty", lines)
                return unfinished
            if status != 3 or process.lines or lines != ["damaged 0"]:
                lost("a new controller was told and isn't there", (process.lines, status, lines))
            # A process that was killed before its first write leaves no file.
            if os.path.exists(self.path):
                os.remove(self.path)

    def add(self, chance, soon=False):
        """Adds objects until the process is killed, and looks at what is there."""
        process = Killed(self.folder, ["run", self.name, str(self.objects), str(MANY)], chance, soon)
        told = process.lines
        if told and told[0] != f"started {self.objects}":
            lost("a start found another USN", (self.objects, told[0]))
        acknowledged = told[1:]
        wanted = [f"added {self.objects + at} {self.objects + at + 1}" for at in range(len(acknowledged))]
        if acknowledged != wanted or process.status not in (None, 0):
            lost("the process went wrong", (process.status, told[-3:]))
        least = self.objects + len(acknowledged)
        status, lines = self.show()
        there = len(lines) - 1
        if status != 0 or there not in (least, least + 1):
            lost(f"{least} objects were acknowledged, and {there} are shown", (status, lines[-3:]))
        if lines != [str(number) for number in range(there)] + [f"usn {there}"]:
            lost("other objects are shown than were added", lines[-3:])
        under_way = there - least
        self.objects = there
        return len(acknowledged), under_way


def record_of(number):
    """The bytes of a record that adds the object of a number, whose name is an `o` and the number."""
    return 183 + len(str(number))


class FullFile(File):
    """A file whose next write has to write its log anew."""

    def __init__(self, folder, name):
        super().__init__(folder, name)
        subprocess.run([PROGRAM, "new", name], cwd=folder, stdout=subprocess.DEVNULL, check=True)
        self.fill()

    def read(self):
        with open(self.path, "rb") as file:
            self.data = file.read()
        return read_log.read_log(self.data)[1]

    def fill(self):
        """Adds objects until that write is the next one."""
        log = self.read()
        records, image, more = log.end - log.first - 1, log.first - log.place - 6, 0
        while records == 0 or records + record_of(self.objects + more) <= image + RECORDS_MORE:
            records += record_of(self.objects + more)
            more += 1
        subprocess.run([PROGRAM, "run", self.name, str(self.objects), str(more)], cwd=self.folder, stdout=subprocess.DEVNULL, check=True)
        self.objects += more
        self.log, self.full = self.read(), self.objects

    def go_on(self):
        """One write more, which writes the log anew; and fills that."""
        self.back()
        subprocess.run([PROGRAM, "run", self.name, str(self.objects), "1"], cwd=self.folder, stdout=subprocess.DEVNULL, check=True)
        self.objects += 1
        if self.read().second == self.log.second:
            lost("a log was not written anew", (self.log, self.objects))
        self.fill()

    def back(self):
        """The file as it was before a process was killed."""
        self.objects = self.full
        with open(self.path, "wb") as file:
            file.write(self.data)

    def kill(self, chance):
        """Kills a process at about that write; where that was: before it, within it, or behind the new selector."""
        self.back()
        self.add(chance, soon=True)
        with open(self.path, "rb") as file:
            data = file.read()
        self.compare("a log that was written anew")
        log = read_log.read_log(data)[1]
        if log.second != self.log.second:
            return "behind"
        return "before" if data[: len(self.data)] == self.data and len(data) == len(self.data) else "within"


def checkpoints(folder, chance, count):
    """Kills processes while they write logs anew, in either slot and at several places; how many there were of each kind."""
    killed = {"before": 0, "within": 0, "behind": 0}
    for turn in range(count):
        # Each time the log is written anew its image is twice as long, so a new file is begun now and then.
        if turn % KILLS_OF_FILE == 0:
            file = FullFile(folder, f"anew{turn}")
        elif turn % KILLS_OF_LOG == 0:
            file.go_on()
        killed[file.kill(chance)] += 1
    return killed


def with_two_areas(whole, selector):
    """A log with a copy of its area behind it, of which the selector selects one."""
    area = whole[read_log.FIRST_AREA :]
    places = read_log.FIRST_AREA, len(whole)
    return whole[:39] + bytes([selector]) + b"".join(place.to_bytes(8, "big") for place in places) + area + area


def damage(folder, chance):
    """A small log, with one area and with two, cut at every place and changed at every byte; how many such logs there are."""
    file = File(folder, "small")
    for words in (["new", file.name], ["run", file.name, "0", str(SMALL)]):
        subprocess.run([PROGRAM, *words], cwd=folder, stdout=subprocess.DEVNULL, check=True)
    small, damaged = file.compare("a small log"), 0
    for whole in (small, with_two_areas(small, 0), with_two_areas(small, read_log.OPEN)):
        for place, byte in enumerate(whole):
            others = {0, 0xC3, byte ^ 1, byte ^ 0x80, chance.randrange(256)} - {byte}
            logs = [(f"a cut at {place}", whole[:place])]
            logs += [(f"byte {place} changed to {other}", whole[:place] + bytes([other]) + whole[place + 1 :]) for other in sorted(others)]
            for what, data in logs:
                with open(file.path, "wb") as out:
                    out.write(data)
                file.compare(what)
                damaged += 1
    return damaged


def main():
    parser = argparse.ArgumentParser(description=__doc__.split("\n", maxsplit=1)[0])
    parser.add_argument("--rounds", type=int, default=2000)
    parser.add_argument("--checkpoints", type=int, default=1000)
    parser.add_argument("--seed", type=int, default=None)
    given = parser.parse_args()
    seed = given.seed if given.seed is not None else random.randrange(2**32)
    chance = random.Random(seed)
    if not os.path.exists(PROGRAM):
        sys.exit(f"survive: {PROGRAM} isn't built: `rt run` in crates/adr_test_killed builds it")
    files = acknowledged = under_way = unfinished = 0
    folder = tempfile.mkdtemp(prefix="survive-")
    print(f"seed {seed}, in {folder}", flush=True)
    for turn in range(given.rounds):
        if turn % ROUNDS_OF_FILE == 0:
            for _ in range(FORMATS_OF_FILE):
                file = File(folder, f"file{files}")
                files += 1
                unfinished += file.format(chance)
        told, more = file.add(chance)
        acknowledged, under_way = acknowledged + told, under_way + more
        if turn % ROUNDS_OF_FILE == ROUNDS_OF_FILE - 1:
            file.compare("a log of killed processes")
    anew = checkpoints(folder, chance, given.checkpoints)
    damaged = damage(folder, chance)
    shutil.rmtree(folder)
    print(f"{given.rounds} rounds, {Killed.count} kills, {acknowledged} objects acknowledged, {under_way} more that were under way: none is lost")
    print(f"{files} files formatted, by {unfinished} processes more that were killed too early")
    print(f"{given.checkpoints} processes killed while a log was written anew: {anew['before']} before it, {anew['within']} within it, {anew['behind']} behind")
    print(f"{damaged} damaged logs, each found the same by both readers")


if __name__ == "__main__":
    main()
