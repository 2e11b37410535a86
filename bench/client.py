#!/usr/bin/env python3
"""A client of a node, written from docs/FORMATS.md and docs/SCHEDULES.md: a second codec of messages and frames.

bench/client.py PORT [NAME]    pulls all that the node at this port has, and writes its directory as `show NAME` does
bench/client.py examples       reads and writes the examples of docs/FORMATS.md, and messages of every form

Identifiers are numbers, and messages the tuples of bench/second_reading.py. What the page refuses is raised: `Malformed` with the
place of the first fault in a message, `WrongVersion`, or `BadPeer` where what came is no frame, or none that is due.
"""
import itertools
import os
import random
import socket
import sys

sys.path.insert(0, os.path.dirname(os.path.abspath(__file__)))
import second_reading as rules
from second_reading import Mark, Oid, Refusal, Reply, Request, Stamp

USN_MOST, VERSION_MOST = 2**63 - 1, 2**32 - 1
CURSORS_MOST = 10000
FRAME_MOST, LINE_MOST = 8 * 1024 * 1024, 65536
REQUEST, REPLY, REFUSAL, LINE, ANSWER, GREETING, IDENTITY = range(1, 8)
# seconds that a peer may take
PATIENCE = 120


class Malformed(Exception):
    """A message that isn't one; the place of its first fault, in bytes."""

    def __init__(self, place):
        super().__init__(f"malformed at {place}")
        self.place = place


class WrongVersion(Exception):
    """A message of another version."""

    def __init__(self, found):
        super().__init__(f"version {found}")
        self.found = found


class BadPeer(Exception):
    """What came is no frame, or none that is due."""


class HungUp(BadPeer):
    """The peer hung up behind a whole frame, or before the first."""


# --- fields ---------------------------------------------------------------------------------------------------------
class Reader:
    """Reads fields from left to right."""

    def __init__(self, raw):
        self.raw, self.at = raw, 0

    def bytes(self, count):
        if count > len(self.raw) - self.at:
            raise Malformed(self.at)
        self.at += count
        return self.raw[self.at - count:self.at]

    def number(self, width, least=0, most=None):
        place = self.at
        number = int.from_bytes(self.bytes(width), "big")
        if number < least or most is not None and number > most:
            raise Malformed(place)
        return number

    def i64(self):
        return int.from_bytes(self.bytes(8), "big", signed=True)

    def id(self):
        return self.number(16)

    def flag(self):
        return self.number(1, 0, 1) == 1

    def usn(self):
        return self.number(8, 1, USN_MOST)

    def usn0(self):
        return self.number(8, 0, USN_MOST)

    def long_bytes(self):
        """Bytes behind their length."""
        place = self.at
        length = self.number(2)
        if length > len(self.raw) - self.at:
            raise Malformed(place)
        return self.bytes(length)

    def text(self):
        place = self.at
        try:
            return self.long_bytes().decode("utf-8")
        except UnicodeDecodeError:
            raise Malformed(place) from None

    def mark(self):
        return Mark(self.usn0(), self.usn0(), self.usn0())

    def ordered_mark(self):
        place, mark = self.at, self.mark()
        if not mark.prop <= mark.obj <= mark.seen:
            raise Malformed(place)
        return mark

    def oid(self):
        return Oid(self.id(), self.id(), self.usn())

    def stamp(self):
        return Stamp(self.number(4, 1, VERSION_MOST), self.number(8), self.id(), self.usn())

    def value(self):
        place, kind = self.at, self.number(1)
        if kind == 1:
            return ("text", self.text())
        if kind == 2:
            return ("num", self.i64())
        if kind == 3:
            return ("flag", self.flag())
        if kind == 4:
            return ("oct", self.long_bytes().hex())
        if kind == 5:
            return ("ref", self.id())
        raise Malformed(place)

    def content(self, attr):
        if attr == 1:
            return self.number(2)
        if attr == 2:
            parent = self.id()
            return (self.text(), parent)
        if attr == 3:
            return None
        return [self.value() for _ in range(self.number(1))]

    def rows(self):
        rows = []
        for _ in range(self.number(2, 1)):
            place, attr = self.at, self.number(2)
            if rows and attr <= rows[-1][0]:
                raise Malformed(place)
            rows.append((attr, self.stamp(), self.content(attr)))
        return rows

    def item(self):
        kind = self.number(1, 1, 2)
        if kind == 1:
            return ("object", self.oid(), self.rows())
        key = (self.oid(), self.number(2), self.oid())
        return ("link", key, (self.number(8), self.stamp()), self.flag())

    def vector(self):
        vector, last = {}, -1
        for _ in range(self.number(4, 0, CURSORS_MOST)):
            place, inv = self.at, self.id()
            if inv <= last:
                raise Malformed(place)
            vector[inv], last = self.usn(), inv
        return vector

    def vector2(self):
        """A vector, and the times of its cursors that are known."""
        vector, times, last = {}, {}, -1
        for _ in range(self.number(4, 0, CURSORS_MOST)):
            place, inv = self.at, self.id()
            if inv <= last:
                raise Malformed(place)
            vector[inv], time, last = self.usn(), self.number(8), inv
            if time > 0:
                times[inv] = time
        return vector, times

    def head(self, magic, *known):
        """The version of a message, which is one of those that are known."""
        if self.raw[:4] != magic:
            raise Malformed(0)
        self.at = 4
        version = self.number(2)
        if version not in known:
            raise WrongVersion(version)
        return version

    def end(self):
        if self.at < len(self.raw):
            raise Malformed(self.at)


def number_bytes(number, width):
    return number.to_bytes(width, "big")


def id_bytes(number):
    return number_bytes(number, 16)


def long_bytes(raw):
    return number_bytes(len(raw), 2) + raw


def mark_bytes(mark):
    return b"".join(number_bytes(usn, 8) for usn in mark)


def oid_bytes(oid):
    return id_bytes(oid.guid) + id_bytes(oid.inv) + number_bytes(oid.usn, 8)


def stamp_bytes(stamp):
    return number_bytes(stamp.version, 4) + number_bytes(stamp.time, 8) + id_bytes(stamp.inv) + number_bytes(stamp.usn, 8)


def value_bytes(value):
    kind, content = value
    if kind == "text":
        return b"\1" + long_bytes(content.encode())
    if kind == "num":
        return b"\2" + content.to_bytes(8, "big", signed=True)
    if kind == "flag":
        return b"\3" + bytes([content])
    if kind == "oct":
        return b"\4" + long_bytes(bytes.fromhex(content))
    return b"\5" + id_bytes(content)


def content_bytes(attr, content):
    if attr == 1:
        return number_bytes(content, 2)
    if attr == 2:
        return id_bytes(content[1]) + long_bytes(content[0].encode())
    if attr == 3:
        return b""
    return bytes([len(content)]) + b"".join(value_bytes(value) for value in content)


def row_bytes(row):
    attr, stamp, content = row
    return number_bytes(attr, 2) + stamp_bytes(stamp) + content_bytes(attr, content)


def item_bytes(item):
    if item[0] == "object":
        return b"\1" + oid_bytes(item[1]) + number_bytes(len(item[2]), 2) + b"".join(row_bytes(row) for row in item[2])
    (start, attr, end), (created, stamp), present = item[1:]
    return (b"\2" + oid_bytes(start) + number_bytes(attr, 2) + oid_bytes(end) + number_bytes(created, 8) + stamp_bytes(stamp)
            + bytes([present]))


def vector_bytes(vector):
    return number_bytes(len(vector), 4) + b"".join(id_bytes(inv) + number_bytes(vector[inv], 8) for inv in sorted(vector))


def vector2_bytes(vector, times):
    cursors = (id_bytes(inv) + number_bytes(vector[inv], 8) + number_bytes(times.get(inv, 0), 8) for inv in sorted(vector))
    return number_bytes(len(vector), 4) + b"".join(cursors)


# --- messages -------------------------------------------------------------------------------------------------------
def encode_request(request):
    return (b"ADRQ" + number_bytes(request.version, 2) + id_bytes(request.dest) + id_bytes(request.source) + id_bytes(request.inv) + mark_bytes(request.mark)
            + number_bytes(request.schema, 4) + number_bytes(request.max, 4) + vector_bytes(request.vector))


def decode_request(raw):
    reader = Reader(raw)
    version = reader.head(b"ADRQ", 1, 2)
    request = Request(reader.id(), reader.id(), reader.id(), reader.mark(), reader.number(4), reader.number(4, 1), reader.vector(), version)
    reader.end()
    return request


def encode_last(reply):
    if reply.last is None:
        return b"\0"
    return b"\1" + (vector_bytes(reply.last) if reply.version == 1 else vector2_bytes(reply.last, reply.times))


def encode_reply(reply):
    return (b"ADRP" + number_bytes(reply.version, 2) + id_bytes(reply.dest) + id_bytes(reply.source) + id_bytes(reply.inv) + mark_bytes(reply.start)
            + mark_bytes(reply.to) + number_bytes(reply.schema, 4) + vector_bytes(reply.asked) + encode_last(reply)
            + number_bytes(len(reply.items), 4) + b"".join(item_bytes(item) for item in reply.items))


def decode_reply(raw):
    reader = Reader(raw)
    version = reader.head(b"ADRP", 1, 2)
    head = (reader.id(), reader.id(), reader.id(), reader.ordered_mark(), reader.ordered_mark(), reader.number(4), reader.vector())
    last, times = None, {}
    if reader.flag():
        last, times = (reader.vector(), {}) if version == 1 else reader.vector2()
    items = [reader.item() for _ in range(reader.number(4))]
    reader.end()
    return Reply(*head, last, items, version, times)


# the fields of each refusal: their names in an answer, and whether one is an identifier
REFUSALS = {
    23: ("Quarantined", ""), 30: ("WrongController", "mine:id asked:id"), 31: ("SchemaMismatch", "mine:4 theirs:4"),
    32: ("TooOld", "inv:id purged:8 has:8"), 33: ("RolledBack", "inv:id mine:8 shown:8"), 34: ("BadMark", "prop:8 obj:8 seen:8"),
}


def fields_of(number):
    return [field.split(":") for field in REFUSALS[number][1].split()]


def decode_refusal(raw):
    reader = Reader(raw)
    reader.head(b"ADRF", 1)
    place, number = reader.at, reader.number(1)
    if number == 22:
        reader.number(1, 5, 5)
        fields, name = [("table", "Log"), ("limit", reader.number(8))], "Full"
    elif number in REFUSALS:
        name = REFUSALS[number][0]
        fields = [(field, rules.show_id(reader.id()) if kind == "id" else reader.number(int(kind))) for field, kind in fields_of(number)]
    else:
        raise Malformed(place)
    reader.end()
    return Refusal(number, name, *fields)


def encode_refusal(refusal):
    raw = b"ADRF\0\1" + bytes([refusal.number])
    if refusal.number == 22:
        return raw + b"\5" + number_bytes(refusal.fields[1][1], 8)
    for (_, kind), (_, content) in zip(fields_of(refusal.number), refusal.fields):
        raw += id_bytes(rules.read_id(content)) if kind == "id" else number_bytes(content, int(kind))
    return raw


# --- lines ----------------------------------------------------------------------------------------------------------
DEEDS = ("add", "modify", "rename", "delete", "link", "unlink", "collect", "upgrade")


def deed_of(line):
    """The event that the bytes of a client's line say of a controller named N, or None where they are no such line."""
    try:
        verb, space, rest = line.decode("utf-8").strip(" ").partition(" ")
        return rules.read_line(verb + " N" + space + rest) if verb in DEEDS else None
    except (UnicodeDecodeError, rules.Outside):
        return None


def may_answer(line, answer):
    """Whether bytes may be the answer to a line."""
    if deed_of(line) is None:
        return answer == b"bad line"
    verb = line.strip(b" ").split(b" ")[0]
    return b"\n" not in answer and answer.startswith((verb + b": ok", verb + b": refused "))


# --- a session ------------------------------------------------------------------------------------------------------
def frame(kind, body=b""):
    return number_bytes(1 + len(body), 4) + bytes([kind]) + body


class Connection:
    """One end of a connection. `said` counts the messages that it sent."""

    def __init__(self, opened, patience=PATIENCE):
        self.socket, self.said = opened, 0
        self.socket.settimeout(patience)
        self.socket.setsockopt(socket.IPPROTO_TCP, socket.TCP_NODELAY, 1)

    def __enter__(self):
        return self

    def __exit__(self, *_):
        self.close()

    def close(self):
        self.socket.close()

    def send_bytes(self, raw):
        self.socket.sendall(raw)

    def say(self, kind, body=b""):
        self.said += 1
        self.send_bytes(frame(kind, body))

    def receive(self, count):
        """So many bytes, or those that come before the end."""
        raw = bytearray()
        while len(raw) < count:
            some = self.socket.recv(min(65536, count - len(raw)))
            if not some:
                break
            raw += some
        return bytes(raw)

    def hear(self, *due):
        """The kind and the body of the next frame, of one of the kinds that are due."""
        head = self.receive(4)
        if not head:
            raise HungUp("hung up")
        length = int.from_bytes(head, "big")
        if len(head) < 4 or not 1 <= length <= FRAME_MOST:
            raise BadPeer(f"no length: {head.hex()}")
        raw = self.receive(length)
        if len(raw) < length:
            raise BadPeer(f"hung up behind {len(raw)} of {length} bytes")
        if raw[0] not in due:
            raise BadPeer(f"a frame of kind {raw[0]} isn't due")
        return raw[0], raw[1:]


class Client(Connection):
    """A client of the node at a port of this machine."""

    def __init__(self, port, patience=PATIENCE):
        super().__init__(socket.create_connection(("127.0.0.1", port), timeout=patience), patience)

    def greet(self):
        """The bytes of the identifier of the node."""
        self.say(GREETING)
        _, body = self.hear(IDENTITY)
        if len(body) != 16:
            raise BadPeer(f"an identity of {len(body)} bytes")
        return body

    def ask(self, request):
        """The reply to a request, or its refusal."""
        self.say(REQUEST, encode_request(request))
        return self.hear_answer()

    def hear_answer(self):
        kind, body = self.hear(REPLY, REFUSAL)
        return decode_reply(body) if kind == REPLY else decode_refusal(body)

    def line(self, text):
        """What a line was answered."""
        line = text if isinstance(text, bytes) else text.encode()
        self.say(LINE, line)
        return self.hear_line(line)

    def hear_line(self, line):
        """The answer to a line that was said."""
        _, answer = self.hear(ANSWER)
        if not may_answer(line, answer):
            raise BadPeer(f"{line[:80]} was answered {answer[:80]}")
        return answer.decode()


def pull_all(client, dsa, most=1000, version=2):
    """All that a node has: a controller in memory that asks under this identifier, from nothing to the last reply, and changes
    over to schema 2 where the node has."""
    partner = int.from_bytes(client.greet(), "big")
    state = rules.State(dsa, random.getrandbits(128))
    while True:
        reply = client.ask(rules.ask(state, partner, most, version))
        if isinstance(reply, Refusal) and reply.number == 31 and state.schema == 1:
            state = rules.upgrade(state)
            continue
        if isinstance(reply, Refusal):
            raise reply
        state, _ = rules.take(state, reply)
        if reply.last is not None:
            return state


def shown(state, name):
    """The directory, as `show` writes it."""
    lines = rules.View(state).directory()
    return "".join(line + "\n" for line in [f"show {name}: {len(lines)}"] + lines)


# --- the page's examples --------------------------------------------------------------------------------------------
def example_messages():
    """Each message of the page with its bytes, and some of every form."""
    asked = Request(0xb0, 0xa0, 0, rules.ZERO, 1, 10, {}, 1)
    mismatch = Refusal(31, "SchemaMismatch", ("mine", 1), ("theirs", 2))
    page = bytes.fromhex("41445251 0001 000000000000000000000000000000b0 000000000000000000000000000000a0" + "00" * 16 + "00" * 24
                         + "00000001 0000000a 00000000")
    yield asked, page, encode_request, decode_request
    yield mismatch, bytes.fromhex("41445246 0001 1f 00000001 00000002"), encode_refusal, decode_refusal
    yield asked._replace(version=2), page[:5] + b"\2" + page[6:], encode_request, decode_request
    for version in (1, 2):
        yield asked._replace(vector={3: 1, 7: USN_MOST}, mark=Mark(1, 2, 3), version=version), None, encode_request, decode_request
    stamp = Stamp(VERSION_MOST, 2**64 - 1, 7, USN_MOST)
    values = [("text", "ä"), ("num", -5), ("flag", True), ("oct", "00ff"), ("ref", 2**128 - 1)]
    items = [("object", Oid(16, 7, 1), [(1, stamp, 5), (2, stamp, ("Ann", 1)), (3, stamp, None), (10, stamp, values), (11, stamp, [])]),
             ("link", (Oid(16, 7, 1), 32, Oid(17, 7, 2)), (9, stamp), False)]
    told = [(1, None, {}), (1, {}, {}), (1, {7: 5}, {}), (2, None, {}), (2, {}, {}), (2, {7: 5}, {}), (2, {3: 1, 7: 5}, {7: 2**64 - 1})]
    for (version, last, times), some in itertools.product(told, ([], items)):
        yield Reply(1, 2, 3, Mark(5, 4, 6), Mark(6, 6, 6), 1, {1: 1}, last, some, version, times), None, encode_reply, decode_reply
    # the last, empty reply of a controller with one write, made at the second 7
    last = Reply(0xb0, 0xa0, 0xa1, rules.ZERO, Mark(1, 1, 1), 2, {}, {0xa1: 1}, [], 2, {0xa1: 7})
    page = bytes.fromhex("41445250 0002" + "00" * 15 + "b0" + "00" * 15 + "a0" + "00" * 15 + "a1" + "00" * 24 + 3 * "0000000000000001"
                         + "00000002 00000000 01 00000001" + "00" * 15 + "a1 0000000000000001 0000000000000007 00000000")
    yield last, page, encode_reply, decode_reply
    yield Refusal(22, "Full", ("table", "Log"), ("limit", 2**33)), None, encode_refusal, decode_refusal
    yield Refusal(23, "Quarantined"), None, encode_refusal, decode_refusal
    yield Refusal(30, "WrongController", ("mine", "#a0"), ("asked", "#b0")), None, encode_refusal, decode_refusal
    for number, name in ((32, "TooOld"), (33, "RolledBack")):
        fields = [(field, "#a1" if kind == "id" else 5) for field, kind in fields_of(number)]
        yield Refusal(number, name, *fields), None, encode_refusal, decode_refusal
    yield Refusal(34, "BadMark", ("prop", 3), ("obj", 2), ("seen", 1)), None, encode_refusal, decode_refusal


def told(message):
    return message.text() if isinstance(message, Refusal) else message


def is_unknown(decode, raw, version):
    """Whether a message is refused as one of another version."""
    try:
        decode(raw[:4] + number_bytes(version, 2) + raw[6:])
    except WrongVersion as fault:
        return fault.found == version
    except Malformed:
        return False
    return False


def is_refused(decode, raw, place):
    try:
        decode(raw)
    except Malformed as fault:
        return fault.place <= place
    except WrongVersion:
        return False
    return False


def check_examples():
    """Prints what isn't so of the examples; how many were tried."""
    count = 0
    for message, page, encode, decode in example_messages():
        raw = encode(message)
        assert page in (None, raw), (message, raw.hex())
        assert told(decode(raw)) == told(message), message
        assert all(is_refused(decode, raw[:cut], cut) for cut in range(len(raw))), message
        assert is_refused(decode, raw + b"x", len(raw)), message
        assert all(is_unknown(decode, raw, version) for version in (0, 3, 2**16 - 1)), message
        count += 1
    greeting, identity = bytes.fromhex("00000001 06"), bytes.fromhex("00000011 07 000000000000000000000000000000a0")
    assert frame(GREETING) == greeting and frame(IDENTITY, id_bytes(0xa0)) == identity
    refusal = bytes.fromhex("00000010 03 41445246 0001 1f 00000001 00000002")
    assert frame(REFUSAL, encode_refusal(Refusal(31, "SchemaMismatch", ("mine", 1), ("theirs", 2)))) == refusal
    print(f"{count} messages and 3 frames are as on the page")


def main():
    if sys.argv[1:] == ["examples"]:
        check_examples()
        return
    if len(sys.argv) not in (2, 3) or not sys.argv[1].isdecimal():
        sys.exit(__doc__)
    with Client(int(sys.argv[1])) as client:
        state = pull_all(client, random.getrandbits(128))
    sys.stdout.buffer.write(shown(state, sys.argv[2] if sys.argv[2:] else "Node").encode())


if __name__ == "__main__":
    main()
