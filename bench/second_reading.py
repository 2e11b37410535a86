#!/usr/bin/env python3
"""A second reading of the rules, apart from the code and its definitions: the answers to a schedule's text. Plain lists and dicts; slow.

second_reading.py < SCHEDULE          writes the answers, and ends with the status
second_reading.py check FILE..        compares the answers that stand in transcripts
second_reading.py answers FILE..      writes the answers into transcripts
"""
import re
import sys
from collections import namedtuple

# --- the two schemas ------------------------------------------------------------------------------------------------
# by class: its name, what its objects must have, what they may have besides, and the classes of what they may stand under; by
# attribute: its name, and of values their kind, how many there are at most, the least and the greatest; by forward link: its back link
Schema = namedtuple('Schema', 'classes must may superiors attrs syntax back')
SCHEMA_1 = Schema(
    classes={3: 'organizationalUnit', 4: 'container', 5: 'user', 6: 'group', 7: 'computer'},
    must={3: [], 4: [], 5: [10], 6: [19], 7: [10]},
    may={3: [12, 18, 20, 32], 4: [12], 5: [11, 12, 13, 14, 15, 16, 17, 18, 32], 6: [10, 12, 13, 18, 30], 7: [12, 16, 17, 20]},
    superiors={3: [1, 3], 4: [1, 3, 4], 5: [1, 3, 4], 6: [1, 3, 4], 7: [1, 3, 4]},
    attrs={1: 'class', 2: 'name', 3: 'deleted', 10: 'sAMAccountName', 11: 'displayName', 12: 'description', 13: 'mail',
           14: 'telephoneNumber', 15: 'employeeNumber', 16: 'disabled', 17: 'thumbprint', 18: 'seeAlso', 19: 'groupType',
           20: 'location', 30: 'member', 31: 'memberOf', 32: 'manager', 33: 'directReports'},
    syntax={10: ('text', 1, 1, 20), 11: ('text', 1, 1, 256), 12: ('text', 8, 1, 256), 13: ('text', 1, 1, 256),
            14: ('text', 8, 1, 64), 15: ('num', 1, 0, 999999999), 16: ('flag', 1, 0, 0), 17: ('oct', 4, 1, 64),
            18: ('ref', 8, 0, 0), 19: ('num', 1, -2**31, 2**31 - 1), 20: ('text', 1, 1, 128)},
    back={30: 31, 32: 33})
SCHEMA_2 = Schema(
    classes={**SCHEMA_1.classes, 8: 'contact'},
    must={**SCHEMA_1.must, 8: []},
    may={3: SCHEMA_1.may[3] + [34], 4: SCHEMA_1.may[4], 5: SCHEMA_1.may[5] + [21, 22, 23], 6: SCHEMA_1.may[6] + [34],
         7: SCHEMA_1.may[7] + [34], 8: [11, 12, 13, 14, 18, 21, 32]},
    superiors={**SCHEMA_1.superiors, 8: [1, 3, 4]},
    attrs={**SCHEMA_1.attrs, 21: 'title', 22: 'department', 23: 'accountExpires', 34: 'managedBy', 35: 'managedObjects'},
    syntax={**SCHEMA_1.syntax, 21: ('text', 1, 1, 128), 22: ('text', 1, 1, 64), 23: ('num', 1, 0, 2**63 - 1)},
    back={**SCHEMA_1.back, 34: 35})
SCHEMAS = {1: SCHEMA_1, 2: SCHEMA_2}
# the schema whose names texts and answers speak, and by which links are shown at both ends
NEWEST = SCHEMA_2
CLASS_NUMBER = {name: number for number, name in NEWEST.classes.items()}
ATTR_NUMBER = {name: number for number, name in NEWEST.attrs.items()}
FORWARD = {back: attr for attr, back in NEWEST.back.items()}
ROOT, LOST = 1, 2
USN_MAX, VERSION_MAX = 2**63 - 1, 2**32 - 1
ITEM_BYTES = 4 * 1024 * 1024
# a record's body without writes, marks, cursors and removed objects; the limit of a log; and what records may exceed an image by
BODY_LEAST, LOG_LIMIT, RECORDS_MORE = 30, 2**33, 65536
LIMIT = {'Objects': 200000, 'Links': 1000000, 'Cursors': 10000, 'Marks': 10000}

Oid = namedtuple('Oid', 'guid inv usn')
Stamp = namedtuple('Stamp', 'version time inv usn')
Row = namedtuple('Row', 'stamp local content')
LinkRow = namedtuple('LinkRow', 'stamp present local')        # stamp = (created, Stamp)
Mark = namedtuple('Mark', 'obj prop seen')
ZERO = Mark(0, 0, 0)
Request = namedtuple('Request', 'dest source inv mark schema max vector version', defaults=(2,))
# last: None or a vector; times: those of its cursors that are known
Reply = namedtuple('Reply', 'dest source inv start to schema asked last items version times', defaults=(2, {}))


class Refusal(Exception):
    def __init__(self, number, name, *fields):
        super().__init__(number)
        self.number, self.name, self.fields = number, name, fields

    def text(self):
        return 'refused %d %s' % (self.number, self.name) + ''.join(' %s=%s' % field for field in self.fields)


def show_id(number):
    if number < 2**32:
        return '#%x' % number
    return '#' + full_id(number)


def full_id(number):
    digits = '%032x' % number
    return '-'.join((digits[:8], digits[8:12], digits[12:16], digits[16:20], digits[20:]))


def show_text(text):
    out = []
    for character in text:
        code = ord(character)
        if character in '"\\':
            out.append('\\' + character)
        elif code < 0x20 or code == 0x7f:
            out.append('\\%02x' % code)
        else:
            out.append(character)
    return '"' + ''.join(out) + '"'


def show_attr(attr):
    return NEWEST.attrs.get(attr, '%%%d' % attr)


def show_mark(mark):
    return '%d/%d/%d' % mark


def show_value(value):
    kind, content = value
    if kind == 'text':
        return show_text(content)
    if kind == 'num':
        return str(content)
    if kind == 'flag':
        return 'true' if content else 'false'
    if kind == 'oct':
        return 'x' + content
    return show_id(content)


def fold(text):
    return text.casefold()


# --- what the schema tests ----------------------------------------------------------------------------------------
def bad_value_place(schema, attr, values, empty_is_bad):
    kind, most, least, greatest = schema.syntax[attr]
    if not values:
        return 0 if empty_is_bad else None
    for place, value in enumerate(values):
        if value[0] != kind or place >= most or value in values[:place]:
            return place
        if kind == 'text' and not least <= len(value[1].encode()) <= greatest:
            return place
        if kind == 'oct' and not least <= len(value[1]) // 2 <= greatest:
            return place
        if kind == 'num' and not least <= value[1] <= greatest:
            return place
    return None


def bad_name_place(text):
    raw = text.encode()
    if not raw:
        return 0
    if len(raw) > 128:
        return 128
    for place, byte in enumerate(raw):
        if byte < 0x20 or byte == 0x7f or byte == 0x20 and place in (0, len(raw) - 1):
            return place
    return None


def check_attr(schema, class_number, attr, values, empty_is_bad):
    """Refusals 2, 6, 3, 5."""
    if attr not in schema.attrs:
        raise Refusal(2, 'UnknownAttribute', ('attr', show_attr(attr)))
    if attr in schema.back or attr in schema.back.values():
        raise Refusal(6, 'IsLink', ('attr', show_attr(attr)))
    if class_number is not None and (attr <= 3 or attr not in schema.must[class_number] + schema.may[class_number]):
        raise Refusal(3, 'NotAllowed', ('attr', show_attr(attr)))
    if attr > 3:
        place = bad_value_place(schema, attr, values, empty_is_bad)
        if place is not None:
            raise Refusal(5, 'BadValue', ('attr', show_attr(attr)), ('place', place))


def check_name(text):
    place = bad_name_place(text)
    if place is not None:
        raise Refusal(9, 'BadName', ('place', place))


# --- one controller's state ---------------------------------------------------------------------------------------
class State:
    def __init__(self, dsa, inv):
        self.dsa, self.inv, self.usn, self.quarantined, self.schema = dsa, inv, 0, False, 1
        self.others = {}          # the vector without the own cursor
        self.times = {}           # inv: the second of the last success with its cursor, where one is known
        self.purged = {}
        self.marks = {}           # dsa: (inv, mark)
        self.objects = {}         # Oid: {attr: Row}
        self.links = {}           # (from, attr, to): LinkRow
        self.body = BODY_LEAST    # the bytes of the change that led here, as the body of a record

    def copy(self):
        new = State(self.dsa, self.inv)
        new.usn, new.quarantined, new.schema = self.usn, self.quarantined, self.schema
        new.others, new.times, new.purged, new.marks = dict(self.others), dict(self.times), dict(self.purged), dict(self.marks)
        new.objects = {oid: dict(rows) for oid, rows in self.objects.items()}
        new.links = dict(self.links)
        return new

    def table(self):
        return SCHEMAS[self.schema]

    def vector(self):
        vector = {inv: usn for inv, usn in self.others.items() if inv != self.inv and usn > 0}
        if self.usn > 0:
            vector[self.inv] = self.usn
        return vector

    def mark(self, dsa, inv):
        kept_inv, mark = self.marks.get(dsa, (0, ZERO))
        return mark if kept_inv == inv else ZERO

    def is_dead(self, oid):
        return 3 in self.objects[oid]

    def strip(self, oid):
        self.objects[oid] = {attr: row for attr, row in self.objects[oid].items() if attr <= 3}
        self.links = {key: row for key, row in self.links.items() if oid not in (key[0], key[2])}


def covers(vector, inv, usn):
    return vector.get(inv, 0) >= usn


def first_gap(vector, other):
    for inv in sorted(vector):
        if vector[inv] > other.get(inv, 0):
            return inv
    return None


def join(vector, other):
    for inv, usn in other.items():
        vector[inv] = max(usn, vector.get(inv, 0))


# --- what is shown ------------------------------------------------------------------------------------------------
class View:
    """Live objects, their places and names."""
    def __init__(self, state):
        self.state = state
        self.live = {}            # guid: Oid
        for oid, rows in state.objects.items():
            if 3 in rows:
                continue
            held = self.live.get(oid.guid)
            if held is None or self.birth_rank(oid) > self.birth_rank(held):
                self.live[oid.guid] = oid
        self.parent = {guid: self.name_row(guid).content[1] for guid in self.live}
        first = {}
        for guid, parent in self.parent.items():
            first[guid] = parent if parent in (ROOT, LOST) or parent in self.live else LOST
        self.place = dict(first)
        for guid in self.live:
            loop, at = [], guid
            while at in first and at not in loop:
                loop.append(at)
                at = first[at]
            if at == guid:        # guid is a member of a loop, and `loop` is all of it
                self.place[max(loop, key=self.name_rank)] = LOST
        self.shown = {guid: self.shown_name(guid) for guid in self.live}

    def birth_rank(self, oid):
        return (self.state.objects[oid][1].stamp, oid.inv, oid.usn)

    def name_row(self, guid):
        return self.state.objects[self.live[guid]][2]

    def name_rank(self, guid):
        return (self.name_row(guid).stamp, guid)

    def text(self, guid):
        return self.name_row(guid).content[0]

    def class_of(self, guid):
        return self.state.objects[self.live[guid]][1].content

    def holder(self, parent, folded):
        if parent == ROOT and folded == fold('LostAndFound'):
            return LOST
        same = [guid for guid in self.live if self.place[guid] == parent and fold(self.text(guid)) == folded]
        return max(same, key=self.name_rank) if same else None

    def others_named(self, parent, folded, guid):
        if parent == ROOT and folded == fold('LostAndFound'):
            return True
        return any(other != guid and self.place[other] == parent and fold(self.text(other)) == folded for other in self.live)

    def shown_name(self, guid):
        text = self.text(guid)
        if self.holder(self.place[guid], fold(text)) == guid:
            return text
        return text + '\nCNF:' + full_id(guid)

    def values(self, guid):
        """What an entry shows of its attributes that aren't links."""
        return {attr: row.content for attr, row in self.state.objects[self.live[guid]].items() if attr >= 10 and row.content}

    def ends(self):
        """What entries show of links, forward and back: by GUID and attribute the GUIDs of the other ends."""
        ends = {}
        for (start, attr, end), row in self.state.links.items():
            if row.present and self.live.get(start.guid) == start and self.live.get(end.guid) == end:
                ends.setdefault(start.guid, {}).setdefault(attr, []).append(end.guid)
                ends.setdefault(end.guid, {}).setdefault(NEWEST.back[attr], []).append(start.guid)
        return ends

    def directory(self):
        lines, ends = [], self.ends()
        for guid in sorted(self.live):
            shown = {attr: [show_value(value) for value in values] for attr, values in self.values(guid).items()}
            for attr, guids in ends.get(guid, {}).items():
                shown[attr] = [show_id(end) for end in sorted(guids)]
            lines.append('  %s %s parent=%s name=%s' % (show_id(guid), NEWEST.classes[self.class_of(guid)], show_id(self.place[guid]),
                                                     show_text(self.shown[guid]))
                         + ''.join(' %s=%s' % (show_attr(attr), ','.join(shown[attr])) for attr in sorted(shown)))
        return lines

    def meta(self, guid):
        """How each object of a GUID is held, and which write made each of its rows."""
        lines = []
        for oid in sorted(oid for oid in self.state.objects if oid.guid == guid):
            rows = self.state.objects[oid]
            life, name = 'hidden', rows[2].content[0]
            if self.state.is_dead(oid):
                life, name = 'dead', name + '\nDEL:' + full_id(guid)
            elif self.live[guid] == oid:
                life, name = 'live', self.shown[guid]
            lines.append('  object birth=%s/%d %s name=%s' % (show_id(oid.inv), oid.usn, life, show_text(name)))
            for attr, row in sorted(rows.items()):
                lines.append('  attr=%s version=%d time=%d inv=%s usn=%d local=%d' % (show_attr(attr), row.stamp.version, row.stamp.time,
                                                                                     show_id(row.stamp.inv), row.stamp.usn, row.local))
        return lines


# --- originating writes -------------------------------------------------------------------------------------------
def named(state, view, guid):
    """Refusals 10 and 11, or the live object."""
    if guid in view.live:
        return view.live[guid]
    if any(oid.guid == guid for oid in state.objects):
        raise Refusal(11, 'Deleted', ('guid', show_id(guid)))
    raise Refusal(10, 'NoObject', ('guid', show_id(guid)))


def fixed(guid):
    if guid in (ROOT, LOST):
        raise Refusal(16, 'Fixed', ('guid', show_id(guid)))


def check_parent(view, parent):
    if parent not in (ROOT, LOST) and parent not in view.live:
        raise Refusal(12, 'NoParent', ('guid', show_id(parent)))


def check_way_up(view, parent, guid):
    """Refusal 14: the way up from a parent, by the parents that names give and through live objects, meets the GUID."""
    at, seen = parent, set()
    while at not in seen:
        if at == guid:
            raise Refusal(14, 'WouldLoop')
        if at in (ROOT, LOST) or at not in view.live:
            return
        seen.add(at)
        at = view.parent[at]


def check_superior(view, class_number, parent):
    above = parent if parent in (ROOT, LOST) else view.class_of(parent)
    if above not in view.state.table().superiors[class_number]:
        raise Refusal(8, 'BadSuperior')


def check_taken(view, parent, text, guid):
    if view.others_named(parent, fold(text), guid):
        raise Refusal(13, 'NameTaken', ('holder', show_id(view.holder(parent, fold(text)))))


def not_quarantined(state):
    if state.quarantined:
        raise Refusal(23, 'Quarantined')


def next_stamp(state, attr, held, now):
    if held is not None and held.version == VERSION_MAX:
        raise Refusal(20, 'VersionLimit', ('attr', show_attr(attr)))
    return Stamp(1 if held is None else held.version + 1, now, state.inv, state.usn + 1)


def take_usn(state, count=1):
    if state.usn + count > USN_MAX:
        raise Refusal(21, 'UsnLimit')
    state.usn += count


def sizes(state):
    return {'Objects': len(state.objects), 'Links': len(state.links), 'Cursors': len(state.vector()), 'Marks': len(state.marks)}


def full(*ways):
    """Refuses what is beyond the limit of a table anywhere on the way, in the order of the tables."""
    for table in ('Objects', 'Links', 'Cursors', 'Marks'):
        if any(way[table] > LIMIT[table] for way in ways):
            raise Refusal(22, 'Full', ('table', table), ('limit', LIMIT[table]))


def written(old, state):
    """Counts what a client's write wrote: all that came behind the USN before."""
    for oid, rows in state.objects.items():
        sent = [(attr, row.stamp, row.content) for attr, row in rows.items() if row.local > old.usn]
        if sent:
            state.body += 8 + item_length(('object', oid, sent))
    state.body += sum(8 + item_length(('link',)) for row in state.links.values() if row.local > old.usn)
    return state


def write_add(old, now, guid, class_number, parent, text, values):
    not_quarantined(old)
    state, view = old.copy(), View(old)
    if guid in (ROOT, LOST) or any(oid.guid == guid for oid in state.objects):
        raise Refusal(17, 'GuidThere', ('guid', show_id(guid)))
    schema = state.table()
    if class_number not in schema.classes:
        raise Refusal(1, 'UnknownClass')
    for attr in sorted(values):
        check_attr(schema, class_number, attr, values[attr], True)
    for attr in sorted(schema.must[class_number]):
        if attr not in values:
            raise Refusal(4, 'MissingMust', ('attr', show_attr(attr)))
    check_name(text)
    check_parent(view, parent)
    check_superior(view, class_number, parent)
    check_taken(view, parent, text, guid)
    rows = {1: class_number, 2: (text, parent)}
    rows.update({attr: list(values[attr]) for attr in values})
    take_usn(state)
    stamp = Stamp(1, now, state.inv, state.usn)
    state.objects[Oid(guid, state.inv, state.usn)] = {attr: Row(stamp, state.usn, rows[attr]) for attr in rows}
    full(sizes(state))
    return state


def write_modify(old, now, guid, values):
    not_quarantined(old)
    state, view = old.copy(), View(old)
    fixed(guid)
    oid = named(state, view, guid)
    class_number, schema = view.class_of(guid), state.table()
    for attr in sorted(values):
        check_attr(schema, class_number, attr, values[attr], False)
    for attr in sorted(schema.must[class_number]):
        if attr in values and not values[attr]:
            raise Refusal(4, 'MissingMust', ('attr', show_attr(attr)))
    rows = state.objects[oid]
    for attr in sorted(values):
        stamp = next_stamp(state, attr, rows[attr].stamp if attr in rows else None, now)
        rows[attr] = Row(stamp, state.usn + 1, list(values[attr]))
    take_usn(state)
    return state


def write_rename(old, now, guid, parent, text):
    not_quarantined(old)
    state, view = old.copy(), View(old)
    fixed(guid)
    oid = named(state, view, guid)
    check_name(text)
    check_parent(view, parent)
    check_way_up(view, parent, guid)
    check_superior(view, view.class_of(guid), parent)
    check_taken(view, parent, text, guid)
    stamp = next_stamp(state, 2, state.objects[oid][2].stamp, now)
    state.objects[oid][2] = Row(stamp, state.usn + 1, (text, parent))
    take_usn(state)
    return state


def write_delete(old, now, guid):
    not_quarantined(old)
    state, view = old.copy(), View(old)
    fixed(guid)
    oid = named(state, view, guid)
    children = [child for child in view.live if view.place[child] == guid]
    if children:
        raise Refusal(15, 'HasChildren', ('child', show_id(min(children))))
    state.objects[oid][3] = Row(next_stamp(state, 3, None, now), state.usn + 1, None)
    state.strip(oid)
    take_usn(state)
    return state


def write_link(old, now, start, attr, end, present):
    not_quarantined(old)
    state, view = old.copy(), View(old)
    fixed(start)
    fixed(end)
    start_oid, schema = named(state, view, start), state.table()
    if attr not in schema.attrs:
        raise Refusal(2, 'UnknownAttribute', ('attr', show_attr(attr)))
    if attr not in schema.back:
        raise Refusal(7, 'NotLink', ('attr', show_attr(attr)))
    if attr not in schema.may[view.class_of(start)]:
        raise Refusal(3, 'NotAllowed', ('attr', show_attr(attr)))
    end_oid = named(state, view, end)
    key = (start_oid, attr, end_oid)
    held = state.links.get(key)
    if present and held is not None and held.present:
        raise Refusal(18, 'LinkThere')
    if not present and (held is None or not held.present):
        raise Refusal(19, 'LinkNotThere')
    stamp = next_stamp(state, attr, held.stamp[1] if held is not None else None, now)
    created = held.stamp[0] if held is not None else now
    state.links[key] = LinkRow((created, stamp), present, state.usn + 1)
    take_usn(state)
    full(sizes(state))
    return state


def links_revived(state, view, oid, class_number, ends):
    """The keys of the links of an entry whose other end is live, or is the object itself, and whose first end may have them."""
    may, keys = state.table().may, set()
    for attr, guids in ends.items():
        for guid in guids:
            other = oid if guid == oid.guid else view.live.get(guid)
            if other is None:
                continue
            start, link, end = (oid, attr, other) if attr in NEWEST.back else (other, FORWARD[attr], oid)
            if link in may[class_number if start == oid else view.class_of(start.guid)]:
                keys.add((start, link, end))
    return sorted(keys)


def write_revive(old, now, guid, image, parent, text):
    """An object of an image's entry, under a new birth: the object takes one USN, and each of its links one of its own."""
    not_quarantined(old)
    fixed(guid)
    if image.schema > old.schema:
        raise Refusal(31, 'SchemaMismatch', ('mine', old.schema), ('theirs', image.schema))
    state, view, archive = old.copy(), View(old), View(image)
    if guid not in archive.live:
        raise Refusal(60, 'NotInImage', ('guid', show_id(guid)))
    if guid in view.live:
        raise Refusal(61, 'StillLive', ('guid', show_id(guid)))
    oid = Oid(guid, state.inv, state.usn + 1)
    if oid in state.objects or any(oid in (key[0], key[2]) for key in state.links):
        raise Refusal(62, 'BirthThere', ('guid', show_id(guid)))
    class_number = archive.class_of(guid)
    check_name(text)
    check_parent(view, parent)
    check_way_up(view, parent, guid)
    check_superior(view, class_number, parent)
    check_taken(view, parent, text, guid)
    keys = links_revived(state, view, oid, class_number, archive.ends().get(guid, {}))
    take_usn(state, 1 + len(keys))
    rows = {1: class_number, 2: (text, parent), **{attr: list(values) for attr, values in archive.values(guid).items()}}
    stamp = Stamp(1, now, oid.inv, oid.usn)
    state.objects[oid] = {attr: Row(stamp, oid.usn, rows[attr]) for attr in rows}
    for usn, key in enumerate(keys, oid.usn + 1):
        state.links[key] = LinkRow((now, Stamp(1, now, oid.inv, usn)), True, usn)
    full(sizes(state))
    return state


def upgrade(old):
    not_quarantined(old)
    if old.schema == 2:
        raise Refusal(52, 'SchemaThere', ('number', 2))
    state = old.copy()
    state.schema = 2
    return state


# --- requests and replies -----------------------------------------------------------------------------------------
def ask(state, partner, most, version=2):
    inv, mark = state.marks.get(partner, (0, ZERO))
    return Request(state.dsa, partner, inv, mark, state.schema, most, state.vector(), version)


def content_length(attr, content):
    if attr == 1:
        return 2
    if attr == 2:
        return 16 + 2 + len(content[0].encode())
    if attr == 3:
        return 0
    return 1 + sum({'text': lambda c: 3 + len(c.encode()), 'num': lambda c: 9, 'flag': lambda c: 2,
                    'oct': lambda c: 3 + len(c) // 2, 'ref': lambda c: 17}[kind](c) for kind, c in content)


def item_length(item):
    if item[0] == 'link':
        return 1 + 40 + 2 + 40 + 8 + 36 + 1
    return 1 + 40 + 2 + sum(2 + 36 + content_length(attr, content) for attr, stamp, content in item[2])


def candidates(state, start, vector):
    found = []
    for oid, rows in state.objects.items():
        last = max(row.local for row in rows.values())
        sent = [(attr, rows[attr].stamp, rows[attr].content) for attr in sorted(rows)
                if rows[attr].local > start.prop and not covers(vector, rows[attr].stamp.inv, rows[attr].stamp.usn)]
        if last > start.obj and sent:
            found.append((last, ('object', oid, sent)))
    for key, row in state.links.items():
        if row.local > start.obj and row.local > start.prop and not covers(vector, row.stamp[1].inv, row.stamp[1].usn):
            found.append((row.local, ('link', key, row.stamp, row.present)))
    return sorted(found, key=lambda pair: pair[0])


def told(state, now):
    """The times that a last reply tells: those that are known, and of the own cursor the moment of the call; 0 isn't told."""
    times = {inv: time for inv, time in state.times.items() if inv != state.inv}
    if state.usn > 0 and now > 0:
        times[state.inv] = now
    return times


def serve(state, request, now):
    """The reply; 33 is raised for the caller to quarantine."""
    not_quarantined(state)
    if request.source != state.dsa:
        raise Refusal(30, 'WrongController', ('mine', show_id(state.dsa)), ('asked', show_id(request.source)))
    mark = request.mark
    if not mark.prop <= mark.obj <= mark.seen:
        raise Refusal(34, 'BadMark', ('prop', mark.prop), ('obj', mark.obj), ('seen', mark.seen))
    shown = max(request.vector.get(state.inv, 0), mark.seen if request.inv == state.inv else 0)
    if shown > state.usn:
        raise Refusal(33, 'RolledBack', ('inv', show_id(state.inv)), ('mine', state.usn), ('shown', shown))
    if request.schema != state.schema:
        raise Refusal(31, 'SchemaMismatch', ('mine', state.schema), ('theirs', request.schema))
    gap = first_gap(state.purged, request.vector)
    if gap is not None:
        raise Refusal(32, 'TooOld', ('inv', show_id(gap)), ('purged', state.purged[gap]), ('has', request.vector.get(gap, 0)))
    start = mark if request.inv == state.inv else ZERO
    left = candidates(state, start, request.vector)
    items, length, last_local = [], 0, None
    while left and len(items) < request.max and length < ITEM_BYTES:
        last_local, item = left.pop(0)
        items.append(item)
        length += item_length(item)
    if left:
        to, vector = Mark(last_local, start.prop, state.usn), None
    else:
        to, vector = Mark(state.usn, state.usn, state.usn), state.vector()
    times = told(state, now) if vector is not None and request.version == 2 else {}
    return Reply(request.dest, request.source, state.inv, start, to, state.schema, request.vector, vector, items, request.version, times)


def bad_item(place, cause):
    return Refusal(44, 'BadItem', ('place', place), ('cause', cause))


def take_object(state, vector, place, oid, sent):
    """Applies one object item; whether it wrote. Rows that aren't left out are tested: 44, then 43."""
    held, schema = state.objects.get(oid), state.table()
    if held is None and covers(vector, oid.inv, oid.usn):
        return False
    attrs = [attr for attr, _, _ in sent]
    if held is not None and 3 in held:
        kept = [row for row in sent if row[0] == 3 and row[1] > held[3].stamp]
    elif held is None and 3 in attrs:
        kept = [row for row in sent if row[0] in (1, 2, 3)]
    else:
        kept = sent
    class_number = held[1].content if held is not None else next((row[2] for row in sent if row[0] == 1), None)
    for attr, stamp, content in kept:
        try:
            if attr == 1:
                if stamp.version != 1 or (stamp.inv, stamp.usn) != (oid.inv, oid.usn):
                    raise bad_item(place, 'WrongBirth')
                if content not in schema.classes:
                    raise Refusal(1, 'UnknownClass')
            elif attr == 2:
                check_name(content[0])
            elif attr != 3:
                must = class_number is not None and attr in schema.must[class_number]
                check_attr(schema, class_number, attr, content, must)
        except Refusal as refusal:
            if refusal.number == 44:
                raise
            raise bad_item(place, refusal.name)
    if held is None:
        given = [attr for attr, _, _ in kept]
        missing = 1 not in given or 2 not in given
        if not missing and 3 not in given:
            missing = any(attr not in given for attr in schema.must[class_number])
        if missing:
            raise Refusal(43, 'Incomplete', ('object', show_id(oid.guid)))
    usn = state.usn + 1
    if held is None:
        new = kept
        state.objects[oid] = {}
    else:
        new = [row for row in kept if row[0] != 1 and (row[0] not in held or row[1] > held[row[0]].stamp)]
    for attr, stamp, content in new:
        state.objects[oid][attr] = Row(stamp, usn, content)
    if 3 in state.objects[oid]:
        state.strip(oid)
        new = [row for row in new if row[0] in (1, 2, 3)]
    if new:
        state.body += 8 + item_length(('object', oid, new))
    return bool(new)


def take_link(state, vector, place, key, stamp, present):
    for end in (key[0], key[2]):
        if end in state.objects:
            if state.is_dead(end):
                return False
        elif covers(vector, end.inv, end.usn):
            return False
    if key[1] not in state.table().back:
        raise bad_item(place, 'NotLink')
    held = state.links.get(key)
    if held is not None and not stamp > held.stamp:
        return False
    state.links[key] = LinkRow(stamp, present, state.usn + 1)
    state.body += 8 + item_length(('link',))
    return True


def take(old, reply):
    """The state after, and the number of items that wrote."""
    not_quarantined(old)
    if reply.dest != old.dsa:
        raise Refusal(40, 'NotMine', ('dest', show_id(reply.dest)))
    mark = old.mark(reply.source, reply.inv)
    if reply.start != mark:
        raise Refusal(41, 'Stale', ('mark', show_mark(mark)), ('from', show_mark(reply.start)))
    vector = old.vector()
    gap = first_gap(reply.asked, vector)
    if gap is not None:
        raise Refusal(42, 'VectorBehind', ('inv', show_id(gap)), ('has', vector.get(gap, 0)), ('needs', reply.asked[gap]))
    if reply.schema != old.schema:
        raise Refusal(31, 'SchemaMismatch', ('mine', old.schema), ('theirs', reply.schema))
    if reply.last is not None and reply.last.get(old.inv, 0) > old.usn:
        raise Refusal(33, 'RolledBack', ('inv', show_id(old.inv)), ('mine', old.usn), ('shown', reply.last[old.inv]))
    state, wrote = old.copy(), 0
    most = sizes(state)
    for place, item in enumerate(reply.items):
        if item[0] == 'object':
            did = take_object(state, vector, place, item[1], item[2])
        else:
            did = take_link(state, vector, place, item[1], item[2], item[3])
        if did:
            wrote += 1
            state.usn += 1
        most = {table: max(size, most[table]) for table, size in sizes(state).items()}
    if state.usn > USN_MAX:
        raise Refusal(21, 'UsnLimit')
    state.marks[reply.source] = (reply.inv, reply.to)
    state.body += 56
    if reply.last is not None:
        join(state.others, reply.last)
        join(state.times, reply.times)
        state.body += 32 * len(reply.last)
    full(most, sizes(state))
    return state, wrote


# --- collection and images ----------------------------------------------------------------------------------------
def collect(old, now, lifetime):
    not_quarantined(old)
    state, vector = old.copy(), old.vector()
    gone = []
    for oid, rows in old.objects.items():
        if 3 in rows:
            death = rows[3].stamp
            if covers(vector, oid.inv, oid.usn) and covers(vector, death.inv, death.usn) and death.time + lifetime <= now:
                gone.append((oid, death))
    if gone:
        take_usn(state)
        least = {}
        for oid, death in gone:
            del state.objects[oid]
            join(least, {oid.inv: oid.usn})
            join(least, {death.inv: death.usn})
        join(state.purged, least)
        state.body += 40 * len(gone) + 24 * len(least)
    return state, len(gone)


def names_inv(image, inv):
    if inv in image.vector() or inv in image.purged or any(inv == kept for kept, _ in image.marks.values()):
        return True
    for oid, rows in image.objects.items():
        if oid.inv == inv or any(row.stamp.inv == inv for row in rows.values()):
            return True
    return any(inv in (key[0].inv, key[2].inv, row.stamp[1].inv) for key, row in image.links.items())


def adopt(image, dsa, inv):
    if names_inv(image, inv):
        raise Refusal(50, 'IdentifierUsed')
    state = image.copy()
    state.others = image.vector()
    state.dsa, state.inv, state.quarantined = dsa, inv, False
    if len(state.vector()) > LIMIT['Cursors']:
        raise Refusal(22, 'Full', ('table', 'Cursors'), ('limit', LIMIT['Cursors']))
    return state


# --- controllers, disks and plans ---------------------------------------------------------------------------------
class Halt(Exception):
    """An answer that ends a call: down, failed, disk, stopped, absent."""


def image_length(state):
    rows = sum(46 + content_length(attr, row.content) for held in state.objects.values() for attr, row in held.items())
    return (30 + 4 + 32 * len(state.vector()) + 4 + 24 * len(state.purged) + 56 * len(state.marks) + 42 * len(state.objects)
            + rows + 135 * len(state.links))


Log = namedtuple('Log', 'second place first end')        # the slot that selects its area, and three places


def area(second, place, state):
    image = image_length(state)
    return Log(second, place, place + 6 + image, place + 7 + image)


class Controller:
    def __init__(self, state):
        self.fresh(state, None)

    def fresh(self, state, log):
        self.read = self.safe = state
        self.read_log = self.safe_log = log or area(False, 56, state)
        if self.read_log.end > LOG_LIMIT:
            raise Refusal(22, 'Full', ('table', 'Log'), ('limit', LOG_LIMIT))
        self.standing, self.plan = 'up', None

    def device(self):
        """What the next device call meets by the plan: None, ('fail', None) or ('stop', how)."""
        if self.plan is None:
            return None
        kind, left, how = self.plan
        if left > 0:
            self.plan = (kind, left - 1, how)
            return None
        self.plan = None
        return (kind, how)

    def crash(self, how):
        if how == 'lost':
            self.read, self.read_log = self.safe, self.safe_log
        elif how == 'torn' and self.read_log.second != self.safe_log.second:
            # the selector isn't synced, and its torn byte selects the second slot
            self.read_log = self.read_log if self.read_log.second else self.safe_log
        self.safe, self.safe_log = self.read, self.read_log
        self.standing = 'down'

    def calls(self, names, does):
        """Device calls, one after the other: what each but a sync does is seen at once, and safe with the next sync."""
        for call in names:
            met = self.device()
            if met is not None and met[0] == 'fail':
                self.standing = 'failed'
                raise Halt('disk')
            if met is None or met[1] != 'lost':
                does(call)
            if met is not None:
                self.crash(met[1])
                raise Halt('stopped')
            if call == 'sync':
                self.safe, self.safe_log = self.read, self.read_log

    def commit(self, state):
        old, record = self.read_log, 5 + state.body
        records, image = old.end - old.first - 1, old.first - old.place - 6
        due = records > 0 and records + record > image + RECORDS_MORE
        log = old
        if due:
            size = image_length(self.read) + 7
            log = area(not old.second, 56 if 56 + size <= old.place else old.end, self.read)
        if log.end + record > LOG_LIMIT:
            raise Refusal(22, 'Full', ('table', 'Log'), ('limit', LOG_LIMIT))

        def checkpoint(call):
            if call == 'selector':
                self.read_log = log

        def commits(call):
            if call == 'gate':
                self.read, self.read_log = state, log._replace(end=log.end + record)

        if due:
            self.calls(('area', 'slot', 'sync', 'selector', 'sync'), checkpoint)
        self.calls(('body', 'sync', 'gate', 'sync'), commits)

    def start(self):
        if self.standing == 'up':
            return 'up'
        met = self.device()
        if met is None:
            self.safe, self.safe_log = self.read, self.read_log
            self.standing = 'up'
            return 'ok'
        if met[0] == 'fail':
            return 'disk'
        self.crash(met[1])
        return 'stopped'


class World:
    def __init__(self):
        self.now = 0
        self.controllers, self.requests, self.replies, self.images, self.snapshots = {}, {}, {}, {}, {}

    # what a line names
    def there(self, name):
        if name not in self.controllers:
            raise Halt('absent')
        return self.controllers[name]

    def up(self, name):
        controller = self.there(name)
        if controller.standing != 'up':
            raise Halt(controller.standing)
        return controller

    @staticmethod
    def bound(kind, name):
        if name not in kind:
            raise Halt('absent')
        return kind[name]

    def quarantine(self, controller):
        state = controller.read.copy()
        state.quarantined = True
        controller.commit(state)

    # calls; each answers the result's text (and lines)
    def call(self, work):
        try:
            return work()
        except Halt as halt:
            return str(halt)
        except Refusal as refusal:
            return refusal.text()

    def write(self, name, function, *arguments):
        def work():
            controller = self.up(name)
            controller.commit(written(controller.read, function(controller.read, self.now, *arguments)))
            return 'ok usn=%d' % controller.read.usn
        return self.call(work)

    def do_ask(self, name, partner, most, version=2):
        """Result and request."""
        made = []

        def work():
            self.there(name)
            partner_dsa = self.there(partner).read.dsa
            made.append(ask(self.up(name).read, partner_dsa, most, version))
            return 'ok'
        return self.call(work), made[0] if made else None

    def do_serve(self, name, get):
        made = []

        def work():
            controller = self.up(name)
            request = get()
            try:
                reply = serve(controller.read, request, self.now)
            except Refusal as refusal:
                if refusal.number == 33:
                    self.quarantine(controller)
                raise
            made.append(reply)
            rows = sum(len(item[2]) if item[0] == 'object' else 1 for item in reply.items)
            return 'ok from=%s to=%s items=%d rows=%d %s' % (show_mark(reply.start), show_mark(reply.to), len(reply.items), rows,
                                                           'more' if reply.last is None else 'last')
        return self.call(work), made[0] if made else None

    def do_deliver(self, name, get):
        def work():
            controller = self.up(name)
            reply = get()
            try:
                state, wrote = take(controller.read, reply)
            except Refusal as refusal:
                if refusal.number == 33:
                    self.quarantine(controller)
                raise
            controller.commit(state)
            return 'ok items=%d wrote=%d usn=%d' % (len(reply.items), wrote, state.usn)
        return self.call(work)

    def pull(self, dest, source, most):
        """Lines, and whether it went well, and whether the reply was last."""
        result, request = self.do_ask(dest, source, most)
        lines = ['ask %s: %s' % (dest, result)]
        if request is None:
            return lines, False, False
        result, reply = self.do_serve(source, lambda: request)
        lines.append('serve %s: %s' % (source, result))
        if reply is None:
            return lines, False, False
        result = self.do_deliver(dest, lambda: reply)
        lines.append('deliver %s: %s' % (dest, result))
        return lines, result.startswith('ok'), reply.last is not None

    def cycle(self, dest, source, most):
        """Lines, and the one of them that isn't ok, if there is one."""
        lines = []
        for _ in range(1000000):
            more, well, last = self.pull(dest, source, most)
            lines += more
            if not well:
                return lines, lines[-1]
            if last:
                return lines, None
        lines.append('cycle %s: more' % dest)
        return lines, lines[-1]

    def ring(self, rounds, most, names):
        """The one line of a ring: what ended it, or what the controllers are like behind it."""
        for _ in range(rounds):
            for place, name in enumerate(names):
                bad = self.cycle(name, names[place - 1], most)[1]
                if bad is not None:
                    return bad
        held = [self.up(name).read for name in names]
        first, others = held[0], held[1:]
        directories = all(View(state).directory() == View(first).directory() for state in others)
        vectors = all(state.vector() == first.vector() for state in others)
        return 'ring %s: ok rounds=%d directories=%s vectors=%s' % (names[0], rounds, str(directories).lower(), str(vectors).lower())

    def report(self, name, work):
        def whole():
            lines = work(self.up(name).read)
            return '\n'.join(['%d' % len(lines)] + lines)
        return self.call(whole)

    def step(self, event):
        """The answer lines of one event."""
        verb, rest = event[0], event[1:]
        if verb == 'time':
            self.now = rest[0]
            return []
        if verb == 'pull':
            return self.pull(*rest)[0]
        if verb == 'cycle':
            return self.cycle(*rest)[0]
        if verb == 'ring':
            return [self.ring(*rest)]
        name = rest[0]
        result = getattr(self, 'line_' + verb.replace(' ', '_'))(*rest)
        return ('%s %s: %s' % (verb.split()[0], name, result)).split('\n')

    def line_controller(self, name, dsa, inv):
        self.controllers[name] = Controller(State(dsa, inv))
        return 'ok'

    def line_add(self, name, *arguments):
        return self.write(name, write_add, *arguments)

    def line_modify(self, name, *arguments):
        return self.write(name, write_modify, *arguments)

    def line_rename(self, name, *arguments):
        return self.write(name, write_rename, *arguments)

    def line_delete(self, name, *arguments):
        return self.write(name, write_delete, *arguments)

    def line_link(self, name, *arguments):
        return self.write(name, write_link, *arguments, True)

    def line_unlink(self, name, *arguments):
        return self.write(name, write_link, *arguments, False)

    def line_revive(self, name, guid, image, parent, text):
        def work():
            return self.write(name, write_revive, guid, self.bound(self.images, image), parent, text)
        return self.call(work)

    def line_upgrade(self, name):
        def work():
            controller = self.up(name)
            controller.commit(upgrade(controller.read))
            return 'ok'
        return self.call(work)

    def line_ask(self, name, partner, most, bound, version=2):
        result, request = self.do_ask(name, partner, most, version)
        if request is not None:
            self.requests[bound] = request
        return result

    def line_serve(self, name, request, bound):
        result, reply = self.do_serve(name, lambda: self.bound(self.requests, request))
        if reply is not None:
            self.replies[bound] = reply
        return result

    def line_deliver(self, name, reply):
        return self.do_deliver(name, lambda: self.bound(self.replies, reply))

    def line_collect(self, name, lifetime):
        def work():
            controller = self.up(name)
            state, removed = collect(controller.read, self.now, lifetime)
            controller.commit(state)
            return 'ok removed=%d' % removed
        return self.call(work)

    def line_backup(self, name, bound):
        def work():
            state = self.up(name).read
            not_quarantined(state)
            self.images[bound] = state.copy()
            return 'ok'
        return self.call(work)

    def line_restore(self, name, image, inv):
        def work():
            controller = self.there(name)
            controller.fresh(adopt(self.bound(self.images, image), controller.read.dsa, inv), None)
            return 'ok'
        return self.call(work)

    def line_install(self, name, dsa, image, inv):
        def work():
            self.controllers[name] = Controller(adopt(self.bound(self.images, image), dsa, inv))
            return 'ok'
        return self.call(work)

    def line_snapshot(self, name, bound):
        def work():
            controller = self.there(name)
            self.snapshots[bound] = controller.read.copy(), controller.read_log
            return 'ok'
        return self.call(work)

    def line_rollback(self, name, snapshot):
        def work():
            controller = self.there(name)
            state, log = self.bound(self.snapshots, snapshot)
            controller.fresh(state.copy(), log)
            return 'ok'
        return self.call(work)

    def line_stop(self, name):
        def work():
            controller = self.there(name)
            controller.plan = None
            controller.crash('kept')
            return 'ok'
        return self.call(work)

    def line_stop_after(self, name, calls, how):
        def work():
            self.there(name).plan = ('stop', calls, how)
            return 'ok'
        return self.call(work)

    def line_fail(self, name, calls):
        def work():
            self.there(name).plan = ('fail', calls, None)
            return 'ok'
        return self.call(work)

    def line_start(self, name):
        return self.call(lambda: self.there(name).start())

    def line_show(self, name):
        return self.report(name, lambda state: View(state).directory())

    def line_vector(self, name):
        return self.report(name, lambda state: ['  %s %d %d' % (show_id(inv), usn, state.times.get(inv, 0))
                                                for inv, usn in sorted(state.vector().items())])

    def line_marks(self, name):
        return self.report(name, lambda state: ['  %s %s %s' % (show_id(dsa), show_id(inv), show_mark(mark))
                                                for dsa, (inv, mark) in sorted(state.marks.items())])

    def line_meta(self, name, guid):
        return self.report(name, lambda state: View(state).meta(guid))


# --- the grammar --------------------------------------------------------------------------------------------------
class Outside(Exception):
    """The line is outside the grammar."""


NAME = r'[A-Za-z][A-Za-z0-9_]{0,31}'
ID = r'#(?:[0-9a-f]{8}-[0-9a-f]{4}-[0-9a-f]{4}-[0-9a-f]{4}-[0-9a-f]{12}|0|[1-9a-f][0-9a-f]{0,7})'
NUM = r'(?:0|[1-9][0-9]*)'
TEXT = r'"(?:[^"\\\x00-\x1f\x7f]|\\"|\\\\|\\(?:[01][0-9a-f]|7f))*"'
PLAIN = r'(?:%' + NUM + r'|[A-Za-z]+)'
VALUE = r'(?:' + TEXT + '|-?' + NUM + '|true|false|x(?:[0-9a-f]{2})+|' + ID + ')'
SET = PLAIN + r'=(?:' + VALUE + '(?:,' + VALUE + ')*)?'
FORMS = {'NAME': NAME, 'ID': ID, 'NUM': NUM, 'MAX': NUM, 'ROUNDS': NUM, 'CALLS': NUM, 'TEXT': TEXT, 'CLASS': PLAIN, 'ATTR': PLAIN, 'SET': SET,
         'HOW': 'kept|lost|torn', 'VERSION': 'v1'}
FORMS = {word: re.compile('(?:' + form + ')(?= |$)') for word, form in FORMS.items()}
GRAMMAR = {
    'controller': ['NAME ID ID'], 'time': ['NUM'], 'add': ['NAME ID CLASS ID TEXT SETS'], 'modify': ['NAME ID SETS1'],
    'rename': ['NAME ID ID TEXT'], 'delete': ['NAME ID'], 'link': ['NAME ID ATTR ID'], 'unlink': ['NAME ID ATTR ID'],
    'ask': ['NAME NAME MAX as NAME', 'NAME NAME MAX as NAME VERSION'], 'serve': ['NAME NAME as NAME'], 'deliver': ['NAME NAME'],
    'pull': ['NAME NAME MAX'], 'cycle': ['NAME NAME MAX'], 'collect': ['NAME NUM'], 'backup': ['NAME as NAME'], 'restore': ['NAME NAME ID'],
    'install': ['NAME ID NAME ID'], 'snapshot': ['NAME as NAME'], 'rollback': ['NAME NAME'],
    'stop': ['NAME', 'NAME after CALLS HOW'], 'fail': ['NAME after CALLS'], 'start': ['NAME'], 'show': ['NAME'],
    'vector': ['NAME'], 'marks': ['NAME'], 'meta': ['NAME ID'], 'ring': ['ROUNDS MAX NAMES'], 'upgrade': ['NAME'],
    'revive': ['NAME ID NAME ID TEXT'],
}


def read_id(token):
    return int(token[1:].replace('-', ''), 16)


def read_text(token):
    text = re.sub(r'\\("|\\|[01][0-9a-f]|7f)', lambda m: m.group(1) if m.group(1) in '"\\' else chr(int(m.group(1), 16)), token[1:-1])
    if len(text.encode()) > 65535:
        raise Outside
    return text


def read_number(token, most, least=0):
    """No number in range has more than 20 digits with its sign, and `int` reads no more than 4,300."""
    if len(token) > 20 or not least <= int(token) <= most:
        raise Outside
    return int(token)


def read_plain(token, table):
    if token[0] == '%':
        return read_number(token[1:], 65535)
    if token not in table:
        raise Outside
    return table[token]


def read_value(token):
    if token[0] == '"':
        return ('text', read_text(token))
    if token[0] == '#':
        return ('ref', read_id(token))
    if token[0] == 'x':
        return ('oct', token[1:])
    if token in ('true', 'false'):
        return ('flag', token == 'true')
    if token == '-0':
        raise Outside
    return ('num', read_number(token, 2**63 - 1, -2**63))


def read_token(word, token):
    if word == 'ID':
        return read_id(token)
    if word == 'NUM':
        return read_number(token, 2**64 - 1)
    if word == 'MAX':
        return read_number(token, 10000, 1)
    if word == 'ROUNDS':
        return read_number(token, 126, 1)
    if word == 'VERSION':
        return 1
    if word == 'CALLS':
        return read_number(token, 1000)
    if word == 'TEXT':
        return read_text(token)
    if word == 'CLASS':
        return read_plain(token, CLASS_NUMBER)
    if word == 'ATTR':
        return read_plain(token, ATTR_NUMBER)
    if word == 'SET':
        attr, _, values = token.partition('=')
        return (read_plain(attr, ATTR_NUMBER), [read_value(value) for value in re.findall(VALUE, values)])
    return token


def read_form(line, at, form):
    """The values of the tokens of one form, from the place `at`."""
    out, words = [], form.split()
    rest = words.pop() if words[-1] in ('SETS', 'SETS1', 'NAMES') else None

    def next_token(word):
        nonlocal at
        pattern = FORMS.get(word) or re.compile(re.escape(word) + '(?= |$)')
        spaces = re.compile(' +').match(line, at)
        found = spaces and pattern.match(line, spaces.end())
        if not found:
            raise Outside
        at = found.end()
        return found.group()
    for word in words:
        token = next_token(word)
        if word in FORMS:
            out.append(read_token(word, token))
        elif token != word:
            raise Outside
    if rest == 'NAMES':
        names = []
        while line[at:].strip(' '):
            names.append(next_token('NAME'))
        if not 2 <= len(names) <= 64 or len(set(names)) < len(names):
            raise Outside
        out.append(names)
    elif rest:
        given = {}
        while line[at:].strip(' '):
            attr, values = read_token('SET', next_token('SET'))
            if attr in given:
                raise Outside
            given[attr] = values
        if rest == 'SETS1' and not given:
            raise Outside
        out.append(given)
    elif line[at:].strip(' '):
        raise Outside
    return out


def read_line(line):
    """The event of a line within the grammar."""
    line = line.strip(' ')
    verb = line.split(' ', 1)[0]
    if verb not in GRAMMAR:
        raise Outside
    for form in GRAMMAR[verb]:
        try:
            values = read_form(line, len(verb), form)
        except Outside:
            continue
        return (verb + ' after' if verb == 'stop' and len(values) > 1 else verb, *values)
    raise Outside


USES = {'controller': '', 'install': '..i', 'restore': 'ci', 'ask': 'cc', 'serve': 'cq', 'deliver': 'cr', 'pull': 'cc', 'cycle': 'cc',
        'rollback': 'cs', 'time': '', 'ring': '', 'revive': 'c.i'}
BINDS = {'controller': ('c', 1), 'install': ('c', 1), 'ask': ('q', 4), 'serve': ('r', 3), 'backup': ('i', 2), 'snapshot': ('s', 2)}
DSA = {'controller': 2, 'install': 2}
INV = {'controller': 3, 'restore': 3, 'install': 4}


class Book:
    def __init__(self):
        self.kinds = {kind: set() for kind in 'cqris'}
        self.dsas, self.invs = set(), set()

    def cause(self, event):
        verb = event[0]
        for place, kind in enumerate(USES.get(verb, 'c'), 1):
            if kind != '.' and event[place] not in self.kinds[kind]:
                return 'unknown name'
        if verb == 'ring' and any(name not in self.kinds['c'] for name in event[3]):
            return 'unknown name'
        if verb in BINDS:
            kind, place = BINDS[verb]
            if event[place] in self.kinds[kind]:
                return 'name used'
        if verb in DSA and event[DSA[verb]] in self.dsas or verb in INV and event[INV[verb]] in self.invs:
            return 'identifier used'
        if verb in BINDS and BINDS[verb][0] == 'c' and len(self.kinds['c']) == 64:
            return 'too many'
        if verb in BINDS:
            self.kinds[kind].add(event[place])
        if verb in DSA:
            self.dsas.add(event[DSA[verb]])
        if verb in INV:
            self.invs.add(event[INV[verb]])
        return None


def parse(raw):
    """The list of (line number, event), or the fault's line."""
    if len(raw) > 16 * 1024 * 1024:
        return None, 'line 0: too long'
    events, book = [], Book()
    for number, line in enumerate(raw.split(b'\n'), 1):
        if line.startswith(b';') or not line.strip(b' '):
            continue
        try:
            text = line.decode('utf-8')
        except UnicodeDecodeError:
            return None, 'line %d: not UTF-8' % number
        try:
            event = read_line(text)
        except Outside:
            return None, 'line %d: no command' % number
        cause = book.cause(event)
        if cause:
            return None, 'line %d: %s' % (number, cause)
        events.append((number, event))
    return events, None


def run(raw):
    """All that is written, and the status."""
    events, fault = parse(raw)
    if fault:
        return (fault + '\n').encode(), 3
    world, lines = World(), []
    for _, event in events:
        lines += world.step(event)
    return ''.join(line + '\n' for line in lines).encode(), 0


def transcript(raw):
    """The text with its answers as comments behind their lines; what was there of answers is dropped."""
    raw = b'\n'.join(line for line in raw.split(b'\n') if not line.startswith(b';> '))
    events, fault = parse(raw)
    if fault:
        return raw.rstrip(b'\n') + b'\n;> ' + fault.encode() + b'\n'
    world, events, out = World(), dict(events), []
    for number, line in enumerate(raw.rstrip(b'\n').split(b'\n'), 1):
        out.append(line)
        if number in events:
            out += [(';> ' + answer).encode() for answer in world.step(events[number])]
    return b'\n'.join(out) + b'\n'


def main():
    words = sys.argv[1:]
    if words[:1] == ['answers']:
        for name in words[1:]:
            with open(name, 'rb') as file:
                text = transcript(file.read())
            with open(name, 'wb') as file:
                file.write(text)
        return 0
    if words[:1] == ['check']:
        bad = 0
        for name in words[1:]:
            with open(name, 'rb') as file:
                text = file.read()
            due = b''.join(line[3:] + b'\n' for line in text.split(b'\n') if line.startswith(b';> '))
            if run(text)[0] != due:
                bad += 1
                print('other answers:', name)
        print(len(words) - 1, 'files,', bad, 'with other answers')
        return 1 if bad else 0
    text, status = run(sys.stdin.buffer.read())
    sys.stdout.buffer.write(text)
    return status


if __name__ == '__main__':
    sys.exit(main())
