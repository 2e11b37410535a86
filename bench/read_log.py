#!/usr/bin/env python3
"""Reads the log of a controller and prints its state, or the place at which it is damaged.

Usage: bench/read_log.py FILE..

Written from docs/FORMATS.md and from the tables of docs/MODEL.md alone, and not from the code, so that the two can be
compared: `bench/survive.py` does, over the logs of killed processes and over damaged copies of a small one.
"""
import sys
from dataclasses import dataclass, field

OPEN = 0xC3
FIRST_AREA = 56
MOST_CURSORS = 10_000
MOST_MARKS = 10_000
MOST_OBJECTS = 200_000
MOST_LINKS = 1_000_000
CLASS, NAME, DELETED = 1, 2, 3

# By the number of a schema: what objects of a class must have, and what they may have besides.
CLASSES = {
    1: {
        3: ((), (12, 18, 20, 32)),
        4: ((), (12,)),
        5: ((10,), (11, 12, 13, 14, 15, 16, 17, 18, 32)),
        6: ((19,), (10, 12, 13, 18, 30)),
        7: ((10,), (12, 16, 17, 20)),
    },
    2: {
        3: ((), (12, 18, 20, 32, 34)),
        4: ((), (12,)),
        5: ((10,), (11, 12, 13, 14, 15, 16, 17, 18, 21, 22, 23, 32)),
        6: ((19,), (10, 12, 13, 18, 30, 34)),
        7: ((10,), (12, 16, 17, 20, 34)),
        8: ((), (11, 12, 13, 14, 18, 21, 32)),
    },
}
# The kind of an attribute's values, how many there are at most, and their range.
ATTRIBUTES = {
    10: ("text", 1, 1, 20),
    11: ("text", 1, 1, 256),
    12: ("text", 8, 1, 256),
    13: ("text", 1, 1, 256),
    14: ("text", 8, 1, 64),
    15: ("number", 1, 0, 999_999_999),
    16: ("flag", 1, None, None),
    17: ("octets", 4, 1, 64),
    18: ("reference", 8, None, None),
    19: ("number", 1, -2_147_483_648, 2_147_483_647),
    20: ("text", 1, 1, 128),
    21: ("text", 1, 1, 128),
    22: ("text", 1, 1, 64),
    23: ("number", 1, 0, 2**63 - 1),
}
# Attributes, of values or of links, that schema 1 doesn't know.
OF_SCHEMA_2 = (21, 22, 23, 34, 35)
FORWARD_LINKS = {1: (30, 32), 2: (30, 32, 34)}


class Damaged(Exception):
    """The bytes are no log; the place of the first fault."""

    def __init__(self, place):
        super().__init__(place)
        self.place = place


# ---- fields


class Reader:
    """Bytes from a place on, up to an end."""

    def __init__(self, data, place, end):
        self.data, self.place, self.end = data, place, end

    def take(self, count):
        if self.end - self.place < count:
            raise Damaged(self.place)
        taken = self.data[self.place : self.place + count]
        self.place += count
        return taken

    def number(self, count, least=0, most=None, signed=False):
        place = self.place
        number = int.from_bytes(self.take(count), "big", signed=signed)
        if number < least and not signed or most is not None and number > most:
            raise Damaged(place)
        return number

    def identifier(self):
        return self.take(16)

    def flag(self):
        return self.number(1, 0, 1) == 1

    def usn(self):
        return self.number(8, 1, 2**63 - 1)

    def usn_or_zero(self):
        return self.number(8, 0, 2**63 - 1)

    def octets(self):
        place = self.place
        count = self.number(2)
        if self.end - self.place < count:
            raise Damaged(place)
        return self.take(count)

    def text(self):
        place = self.place
        octets = self.octets()
        try:
            octets.decode("utf-8")
        except UnicodeDecodeError:
            raise Damaged(place) from None
        return octets

    # ---- composites

    def mark(self):
        return self.usn_or_zero(), self.usn_or_zero(), self.usn_or_zero()

    def ordered_mark(self):
        place = self.place
        mark = obj, prop, seen = self.mark()
        if not prop <= obj <= seen:
            raise Damaged(place)
        return mark

    def oid(self):
        return self.identifier(), self.identifier(), self.usn()

    def stamp(self):
        return self.number(4, 1), self.number(8), self.identifier(), self.usn()

    def value(self):
        place = self.place
        kind = self.number(1)
        if kind == 1:
            return "text", self.text()
        if kind == 2:
            return "number", self.number(8, signed=True)
        if kind == 3:
            return "flag", self.flag()
        if kind == 4:
            return "octets", self.octets()
        if kind == 5:
            return "reference", self.identifier()
        raise Damaged(place)

    def content(self, attr):
        if attr == CLASS:
            return self.number(2)
        if attr == NAME:
            parent = self.identifier()
            return parent, self.text()
        if attr == DELETED:
            return None
        return [self.value() for _ in range(self.number(1))]

    def rising(self, key, last, start=None):
        """A key, which is above the last one; else its element is refused at its start."""
        place = self.place if start is None else start
        found = key()
        if last is not None and found <= last:
            raise Damaged(place)
        return found

    def row(self, last, start=None):
        attr = self.rising(lambda: self.number(2), last, start)
        stamp = self.stamp()
        return attr, stamp, self.content(attr)

    def vector(self):
        vector, last = {}, None
        for _ in range(self.number(4, 0, MOST_CURSORS)):
            last = self.rising(self.identifier, last)
            vector[last] = self.usn()
        return vector

    def vector2(self):
        """A vector, and the times of its cursors that are known."""
        vector, times, last = {}, {}, None
        for _ in range(self.number(4, 0, MOST_CURSORS)):
            last = self.rising(self.identifier, last)
            vector[last], time = self.usn(), self.number(8)
            if time:
                times[last] = time
        return vector, times

    def object_item(self):
        oid, rows, last = self.oid(), {}, None
        for _ in range(self.number(2, 1)):
            attr, stamp, content = self.row(last)
            rows[attr], last = (stamp, content), attr
        return oid, rows

    def link_key(self):
        return self.oid(), self.number(2), self.oid()

    def link_said(self):
        created = self.number(8)
        return (created, self.stamp()), self.flag()

    def done(self):
        if self.place != self.end:
            raise Damaged(self.place)


# ---- a state


@dataclass
class State:
    dsa: bytes = b""
    inv: bytes = b""
    schema: int = 1
    usn: int = 0
    quarantined: bool = False
    vector: dict = field(default_factory=dict)
    times: dict = field(default_factory=dict)
    collected: dict = field(default_factory=dict)
    marks: dict = field(default_factory=dict)
    # By object its rows by attribute, each with its local USN, stamp and content; by link its local USN, stamp and
    # whether it is present.
    objects: dict = field(default_factory=dict)
    links: dict = field(default_factory=dict)

    def rows(self):
        return sum(len(rows) for rows in self.objects.values()) + len(self.links)

    def is_dead(self, oid):
        return DELETED in self.objects.get(oid, {})

    def is_gone(self, oid):
        return oid not in self.objects and covers_birth(self.vector, oid)


def covers(vector, stamp):
    return stamp[3] <= vector.get(stamp[2], 0)


def covers_birth(vector, oid):
    return oid[2] <= vector.get(oid[1], 0)


def is_at_most(vector, other):
    return all(usn <= other.get(inv, 0) for inv, usn in vector.items())


def join(vector, other):
    for inv, usn in other.items():
        vector[inv] = max(usn, vector.get(inv, 0))


# ---- the schema


def is_name(text):
    """1 to 128 bytes, none of them a control byte, and no space at an end."""
    if not 1 <= len(text) <= 128 or text[0] == 0x20 or text[-1] == 0x20:
        return False
    return all(byte >= 0x20 and byte != 0x7F for byte in text)


def is_allowed(schema, class_, attr, values):
    """Whether objects of a class may have these values; of a class that isn't known what only a class forbids isn't asked."""
    if attr not in ATTRIBUTES or schema == 1 and attr in OF_SCHEMA_2:
        return False
    must, may = CLASSES[schema].get(class_, ((), ())) if class_ is not None else ((), (attr,))
    if attr not in must and attr not in may or attr in must and not values:
        return False
    kind, most, low, high = ATTRIBUTES[attr]
    if len(values) > most:
        return False
    for at, (its, value) in enumerate(values):
        size = value if its == "number" else len(value) if its in ("text", "octets") else None
        if its != kind or low is not None and not low <= size <= high or (its, value) in values[:at]:
            return False
    return True


def is_birth(oid, rows):
    stamp = rows[CLASS][-2]
    return stamp[0] == 1 and (stamp[2], stamp[3]) == (oid[1], oid[2])


def is_formed(schema, oid, rows):
    """Whether an object's rows are those of one."""
    if CLASS not in rows or NAME not in rows or not is_birth(oid, rows):
        return False
    class_ = rows[CLASS][-1]
    if class_ not in CLASSES[schema] or not is_name(rows[NAME][-1][1]):
        return False
    others = [attr for attr in rows if attr not in (CLASS, NAME, DELETED)]
    if DELETED in rows:
        return not others
    if any(attr not in rows for attr in CLASSES[schema][class_][0]):
        return False
    return all(is_allowed(schema, class_, attr, rows[attr][-1]) for attr in others)


# ---- images


def local_usn(reader, state, faults):
    place = reader.place
    local = reader.usn()
    if local > state.usn:
        faults.append(place)
    return local


def image_object(reader, state, last, locals_):
    start, faults, rows, before = reader.place, [], {}, None
    oid = reader.rising(reader.oid, last)
    class_ = None
    try:
        for _ in range(reader.number(2)):
            place = reader.place
            local = local_usn(reader, state, faults)
            attr, stamp, content = reader.row(before, place)
            rows[attr], before = (local, stamp, content), attr
            if attr == CLASS:
                class_ = content
                if class_ not in CLASSES[state.schema] or not is_birth(oid, rows):
                    raise Damaged(start)
            elif attr == NAME and not is_name(content[1]):
                raise Damaged(start)
            elif attr not in (NAME, DELETED) and (attr == 0 or DELETED in rows or not is_allowed(state.schema, class_, attr, content)):
                raise Damaged(start)
    except Damaged as fault:
        raise Damaged(start if fault.place == start else min(faults + [fault.place])) from None
    greatest = max((local for local, _, _ in rows.values()), default=0)
    if not is_formed(state.schema, oid, rows) or greatest in locals_:
        raise Damaged(start)
    if faults:
        raise Damaged(faults[0])
    locals_.add(greatest)
    return oid, rows


def image_link(reader, state, last, locals_):
    start, faults = reader.place, []
    try:
        local = local_usn(reader, state, faults)
        source = reader.oid()
        place = reader.place
        attr = reader.number(2)
        key = source, attr, reader.oid()
        if last is not None and key <= last or state.is_dead(key[0]) or state.is_dead(key[2]) or local in locals_:
            raise Damaged(start)
        if attr not in FORWARD_LINKS[state.schema]:
            faults.append(place)
        stamp, present = reader.link_said()
    except Damaged as fault:
        raise Damaged(start if fault.place == start else min(faults + [fault.place])) from None
    if faults:
        raise Damaged(faults[0])
    locals_.add(local)
    return key, (local, stamp, present)


def read_image(reader, state, version):
    place = reader.place
    if reader.take(min(4, reader.end - place)) != b"ADIM":
        raise Damaged(place)
    reader.number(2, version, version)
    state.schema = reader.number(4, 1, version)
    state.usn = reader.usn_or_zero()
    state.vector, state.times = (reader.vector(), {}) if version == 1 else reader.vector2()
    place = reader.place
    state.collected = reader.vector()
    if not is_at_most(state.collected, state.vector):
        raise Damaged(place)
    last = None
    for _ in range(reader.number(4, 0, MOST_MARKS)):
        last = reader.rising(reader.identifier, last)
        state.marks[last] = reader.identifier(), reader.ordered_mark()
    last, locals_ = None, set()
    for _ in range(reader.number(4, 0, MOST_OBJECTS)):
        last, rows = image_object(reader, state, last, locals_)
        state.objects[last] = rows
    last = None
    for _ in range(reader.number(4, 0, MOST_LINKS)):
        last, said = image_link(reader, state, last, locals_)
        state.links[last] = said
    reader.done()


# ---- bodies of records


@dataclass
class Change:
    usn: int
    quarantined: bool
    schema: int
    mark: tuple
    joined: dict
    times: dict
    collected: dict
    removed: list
    # Local USN, key and rows by attribute; of a link the key, and what it says under no attribute.
    writes: list


def read_body(data, state, version):
    reader = Reader(data, 0, len(data))
    after, quarantined, mark = reader.usn_or_zero(), reader.flag(), None
    schema = state.schema if version == 1 else reader.number(4, 1, 2)
    if reader.flag():
        mark = reader.identifier(), reader.identifier(), reader.ordered_mark()
    joined, times = (reader.vector(), {}) if version == 1 else reader.vector2()
    collected = reader.vector()
    removed = [reader.oid() for _ in range(reader.number(4))]
    writes, last = [], state.usn
    for _ in range(reader.number(4)):
        last = reader.rising(reader.usn, last)
        kind = reader.number(1, 1, 2)
        if kind == 1:
            writes.append((last, kind, *reader.object_item()))
        else:
            writes.append((last, kind, reader.link_key(), reader.link_said()))
    reader.done()
    return Change(after, quarantined, schema, mark, joined, times, collected, removed, writes)


class CannotFollow(Exception):
    pass


def need(fact):
    if not fact:
        raise CannotFollow


def put_object(state, local, oid, rows):
    held = state.objects.get(oid, {})
    need(all(attr not in held or held[attr][1] < stamp for attr, (stamp, _) in rows.items()))
    if state.is_dead(oid):
        need(set(rows) == {DELETED})
    elif oid not in state.objects:
        need(not state.is_gone(oid) and CLASS in rows and NAME in rows)
        must = CLASSES[state.schema].get(rows[CLASS][1], ((), ()))[0]
        need(DELETED in rows or all(attr in rows for attr in must))
    held = state.objects.setdefault(oid, {})
    for attr, (stamp, content) in rows.items():
        held[attr] = local, stamp, content
        if attr == DELETED:
            for other in [other for other in held if other not in (0, CLASS, NAME, DELETED)]:
                del held[other]
            for link in [link for link in state.links if oid in (link[0], link[2])]:
                del state.links[link]


def put_link(state, local, link, said):
    need(not any(state.is_dead(end) or state.is_gone(end) for end in (link[0], link[2])))
    need(link not in state.links or state.links[link][1] < said[0])
    state.links[link] = local, *said


def is_upgrade(state, change):
    """Whether a record says that schema 2 is taken, and nothing else."""
    said = change.quarantined, change.joined, change.times, change.collected, change.removed, change.writes
    return (state.schema, change.schema, change.usn) == (1, 2, state.usn) and change.mark is None and not any(said)


def follow(state, change):
    """Takes a record."""
    need(not state.quarantined and state.usn <= change.usn and (state.schema == change.schema or is_upgrade(state, change)))
    state.schema = change.schema
    need(all(write[0] <= change.usn for write in change.writes))
    for local, kind, key, said in change.writes:
        (put_object if kind == 1 else put_link)(state, local, key, said)
        need(len(state.objects) <= MOST_OBJECTS and len(state.links) <= MOST_LINKS)
    join(state.collected, change.collected)
    for oid in change.removed:
        need(state.is_dead(oid) and covers_birth(state.collected, oid))
        need(covers(state.collected, state.objects[oid][DELETED][1]))
    for oid in change.removed:
        state.objects.pop(oid, None)
    need(change.joined.get(state.inv, 0) <= change.usn)
    join(state.vector, change.joined)
    join(state.times, change.times)
    if change.usn:
        state.vector[state.inv] = max(change.usn, state.vector.get(state.inv, 0))
    state.usn, state.quarantined = change.usn, change.quarantined
    need(is_at_most(change.collected, state.vector) and len(state.vector) <= MOST_CURSORS)
    if change.mark is not None:
        state.marks[change.mark[0]] = change.mark[1:]
    need(len(state.marks) <= MOST_MARKS)
    for _, kind, key, _ in change.writes:
        if kind == 1:
            need(key not in state.objects or is_formed(state.schema, key, state.objects[key]))
        else:
            need(key not in state.links or key[1] in FORWARD_LINKS[state.schema])


# ---- logs


@dataclass
class Log:
    """Whether the second slot selects its area, and the places of that, of its first gate and behind its closed one."""

    second: bool
    place: int
    first: int
    end: int


def read_front(data, state):
    """Whether the second slot is selected, and the place of the area that it names."""
    reader = Reader(data, 1, len(data))
    if reader.take(min(4, reader.end - 1)) != b"ADJL":
        raise Damaged(1)
    reader.number(2, 2, 2)
    state.dsa, state.inv = reader.identifier(), reader.identifier()
    second = reader.number(1) == OPEN
    place = (reader.number(8), reader.number(8))[second]
    if not FIRST_AREA <= place < len(data):
        raise Damaged(48 if second else 40)
    return second, place


def read_area(data, place, state):
    """An area's version, and the place behind its image."""
    reader = Reader(data, place, len(data))
    version = reader.number(2, 1, 2)
    end = place + 6 + reader.number(4)
    read_image(Reader(data, place + 6, min(end, len(data))), state, version)
    if end > len(data):
        raise Damaged(len(data))
    if state.vector.get(state.inv, 0) != state.usn:
        raise Damaged(place + 6)
    return version, end


def read_log(data):
    """The state that a log leads to, and where it stands."""
    if len(data) < 2 or data[0] != OPEN:
        raise Damaged(0)
    state = State()
    second, place = read_front(data, state)
    version, first = read_area(data, place, state)
    gate = first
    while gate < len(data):
        if data[gate] != OPEN:
            return state, Log(second, place, first, gate + 1)
        behind = gate + 5
        end = behind + int.from_bytes(data[gate + 1 : behind], "big")
        if behind > len(data) or end > len(data):
            raise Damaged(gate)
        try:
            follow(state, read_body(data[behind:end], state, version))
        except (Damaged, CannotFollow):
            raise Damaged(gate) from None
        gate = end
    raise Damaged(gate)


def told(state, log):
    yield f"controller {state.dsa.hex()} invocation {state.inv.hex()}"
    yield f"usn {state.usn}{' quarantined' if state.quarantined else ''}{' schema 2' if state.schema == 2 else ''}"
    yield f"area {int(log.second)} at {log.place}, records from {log.first} on, end {log.end}"
    for name, vector in (("seen", state.vector), ("collected", state.collected)):
        for inv, usn in sorted(vector.items()):
            yield f"{name} {inv.hex()} {usn}"
    for inv, time in sorted(state.times.items()):
        yield f"time {inv.hex()} {time}"
    for dsa, (inv, mark) in sorted(state.marks.items()):
        yield f"mark {dsa.hex()} {inv.hex()} {mark}"
    for oid, rows in sorted(state.objects.items()):
        for attr, (local, stamp, content) in sorted(rows.items()):
            yield f"row {oid[0].hex()} {attr} local {local} stamp {stamp[0]} {stamp[1]} {stamp[2].hex()} {stamp[3]} {content}"
    for link, (local, stamp, present) in sorted(state.links.items()):
        yield f"link {link[0][0].hex()} {link[1]} {link[2][0].hex()} local {local} stamp {stamp} {'present' if present else 'absent'}"


def main():
    for path in sys.argv[1:]:
        with open(path, "rb") as file:
            data = file.read()
        try:
            for line in told(*read_log(data)):
                print(line)
        except Damaged as fault:
            print(f"damaged {fault.place}")


if __name__ == "__main__":
    main()
