#!/usr/bin/env python3
"""Random schedules with the answers of the second reading, and a comparison of a program with them, byte for byte.

compare.py write COUNT SEED FOLDER [PROFILE..]       writes schedules with their answers
compare.py compare PROGRAM COUNT SEED [PROFILE..]    compares; a difference is made small and kept in the folder `differences`
"""
import os
import random
import subprocess
import sys
import second_reading as model

BASE = {'time': 5, 'add': 10, 'modify': 7, 'rename': 5, 'delete': 4, 'link': 6, 'unlink': 3, 'ask': 4, 'serve': 4, 'deliver': 5,
        'pull': 10, 'cycle': 9, 'show': 2, 'vector': 1, 'marks': 1, 'meta': 3, 'stop': 0, 'stop after': 0, 'fail after': 0, 'start': 0,
        'collect': 0, 'backup': 0, 'restore': 0, 'install': 0, 'snapshot': 0, 'rollback': 0, 'controller': 0, 'upgrade': 0, 'revive': 0}
FAULTS = {'stop': 1, 'stop after': 3, 'fail after': 3, 'start': 5}
PROFILES = {
    'plain': {},
    'stops': FAULTS,
    'restore': {'backup': 4, 'restore': 3, 'install': 1},
    'collect': {'collect': 5, 'delete': 9, 'controller': 1, 'time': 8},
    'both': {'collect': 5, 'delete': 9, 'backup': 3, 'restore': 2, 'install': 1, 'time': 8},
    'rollback': {'snapshot': 4, 'rollback': 3, 'restore': 1, 'backup': 2},
    'all': dict(FAULTS, collect=4, delete=7, backup=3, restore=2, install=1, snapshot=3, rollback=2, controller=1, time=7, upgrade=0.5, revive=3),
    'faults': dict(FAULTS, collect=3, delete=5, backup=2, restore=1, install=1, snapshot=2, rollback=1, upgrade=0.3, revive=2),
    'rings': {'ring': 12},
    'times': {'time': 12, 'ask': 7, 'serve': 7, 'deliver': 8, 'vector': 6, 'backup': 1, 'restore': 1, 'install': 1},
    'schemas': {'upgrade': 2, 'add': 14, 'modify': 9, 'link': 9, 'backup': 2, 'restore': 1, 'install': 1, 'revive': 3},
    'revivals': {'backup': 4, 'revive': 16, 'delete': 12, 'link': 12, 'show': 3, 'collect': 0.7, 'restore': 0.5, 'upgrade': 0.15},
    'revivals behind': dict(FAULTS, backup=4, revive=14, delete=9, link=9, snapshot=3, rollback=3, restore=1, install=1, collect=1, upgrade=0.3),
    'logs': {'time': 1, 'add': 6, 'modify': 100, 'rename': 2, 'delete': 1, 'link': 1, 'unlink': 1, 'ask': 0, 'serve': 0, 'deliver': 0,
             'pull': 2, 'cycle': 3, 'show': 0, 'vector': 0, 'marks': 0, 'meta': 0, 'stop': 1, 'stop after': 1, 'fail after': 1, 'start': 6,
             'snapshot': 0.7, 'rollback': 0.3, 'backup': 0.7, 'restore': 0.3, 'collect': 0.3, 'upgrade': 0.2, 'revive': 0.5},
}
# the bytes of a record with a long description, nearly
LONG_RECORD = 2200
# what stands in the way of the rings of a schedule: nothing, down controllers and faults, late ones, disks put back, or all of it
IN_THE_WAY = ['plain', 'stops', 'collect', 'both', 'rollback', 'all']


class Maker:
    def __init__(self, seed, profile):
        self.r = random.Random('%s %s' % (seed, profile))
        self.weights = dict(BASE, **PROFILES[profile])
        if profile == 'rings':
            self.weights.update(PROFILES[self.r.choice(IN_THE_WAY)])
        if self.r.random() < 0.5:        # a schedule has its own likings
            for verb in self.weights:
                self.weights[verb] *= self.r.choice((0.3, 1, 1, 2))
        self.lines, self.world = [], model.World()
        self.names, self.bound = [], {'q': [], 'r': [], 'i': [], 's': []}
        self.ids = list(range(0x10, 0x100))
        self.r.shuffle(self.ids)
        self.dsas = list(range(0x30, 0x100))
        self.r.shuffle(self.dsas)
        self.guids = [0x10 + k for k in range(self.r.randint(2, 7))]
        self.texts = self.r.sample(['x', 'X', 'y', 'z', 'Z', 'lostandfound', 'ß', 'SS', 'w'], self.r.randint(2, 5))
        self.long = profile == 'logs'     # descriptions are long, so that logs are written anew every thirty writes
        self.now, self.most = 0, self.r.choice(((1,), (1, 2), (2, 3, 10), (10000,), (1, 10, 10000)))

    def emit(self, line):
        event = model.read_line(line)
        self.lines.append(line)
        self.world.step(event)

    def name(self):
        return self.r.choice(self.names)

    def two(self):
        if len(self.names) > 1 and self.r.random() < 0.97:
            return self.r.sample(self.names, 2)
        return self.name(), self.name()

    def guid(self):
        if self.r.random() < 0.03:
            return '#%x' % self.r.choice((1, 2, 0x99))
        return '#%x' % self.r.choice(self.guids)

    def held_guid(self, name):
        """Most often the guid of a live object at that controller."""
        controller = self.world.controllers.get(name)
        if controller is not None and self.r.random() < 0.7:
            live = [oid.guid for oid, rows in controller.read.objects.items() if 3 not in rows]
            if live:
                return '#%x' % self.r.choice(live)
        return self.guid()

    def parent(self, name):
        if self.r.random() < 0.55:
            return '#1'
        if self.r.random() < 0.04:
            return '#2'
        return self.held_guid(name)

    def text(self):
        return model.show_text(self.r.choice(self.texts))

    def old(self, kind):
        names = self.bound[kind]
        if not names:
            return None
        return names[-1] if self.r.random() < 0.45 else self.r.choice(names)

    def new(self, kind):
        return '%s%d' % (kind, len(self.bound[kind]) + 1)

    def long_description(self):
        return ' description=' + ','.join('"%d%s"' % (k, self.r.choice('abc') * 255) for k in range(8))

    def long_write(self, name):
        """A long description of a live object at that controller, or another line that brings one nearer."""
        controller = self.world.controllers[name]
        live = [oid for oid, rows in controller.read.objects.items() if 3 not in rows]
        if controller.standing != 'up':
            return 'start ' + name
        if not live:
            return 'add %s #%x container #1 "long"%s' % (name, self.guids[0], self.long_description())
        return 'modify %s #%x%s' % (name, self.r.choice(live).guid, self.long_description())

    def sets(self, class_name, newest):
        r = self.r
        must = {'user': ' sAMAccountName="%s"' % r.choice('ab'), 'computer': ' sAMAccountName="c"', 'group': ' groupType=%d' % r.choice((2, -3))}
        out = must.get(class_name, '')
        if r.random() < 0.02:
            out = ''
        if self.long and r.random() < 0.8:
            out += self.long_description()
        elif r.random() < 0.3:
            out += ' description=' + ','.join(r.sample(['"d"', '"e"', '"f"'], r.randint(1, 2)))
        if class_name == 'user' and r.random() < 0.2:
            out += ' mail="%s"' % r.choice('mn')
        if class_name in ('user', 'contact') and r.random() < (0.3 if newest else 0.01):
            out += ' title="%s"' % r.choice('tu')
        return out

    def some_sets(self, newest):
        r = self.r
        pool = ['description="d%d"' % r.randint(0, 3), 'description=', 'mail="m%d"' % r.randint(0, 2), 'mail=', 'disabled=true', 'disabled=false',
                'seeAlso=%s' % self.guid(), 'groupType=%d' % r.randint(-2, 2), 'sAMAccountName="s%d"' % r.randint(0, 2), 'location="l"',
                'thumbprint=x00%02x' % r.randint(0, 255), 'employeeNumber=%d' % r.randint(0, 5)]
        if r.random() < (0.5 if newest else 0.02):
            pool += ['title="t%d"' % r.randint(0, 2), 'title=', 'department="d%d"' % r.randint(0, 1), 'accountExpires=%d' % r.choice((0, 7, -1, 2**63 - 1))]
        if r.random() < 0.03:
            pool = ['managedBy=#10', '%99="n"', 'name="q"', 'member=#10', 'sAMAccountName=', 'employeeNumber="7"', 'description="d","d"']
        chosen = {}
        for text in r.sample(pool, 1 if r.random() < 0.7 else 2):
            chosen[text.split('=')[0]] = text
        return ' '.join(chosen.values())

    def known_sets(self, name, guid):
        """Attributes that the object's class may have, most often."""
        controller = self.world.controllers.get(name)
        newest = controller is not None and controller.read.schema == 2
        if controller is None or self.r.random() < 0.1:
            return self.some_sets(newest)
        oid = next((oid for oid, rows in controller.read.objects.items() if '#%x' % oid.guid == guid and 3 not in rows), None)
        if oid is None:
            return self.some_sets(newest)
        number, schema = controller.read.objects[oid][1].content, controller.read.table()
        allowed = schema.must[number] + schema.may[number]
        for _ in range(20):
            text = self.some_sets(newest)
            if all(model.ATTR_NUMBER.get(part.split('=')[0]) in allowed for part in text.split(' ')):
                return text
        return 'description="d"'

    def line(self, verb=None):
        r = self.r
        verb = verb or r.choices(list(self.weights), list(self.weights.values()))[0]
        a, b = self.two()
        if verb == 'controller':
            if len(self.names) >= 5:
                return None
            name = 'ABCDEFGH'[len(self.names)]
            self.names.append(name)
            return 'controller %s #%x #%x' % (name, self.dsas.pop(), self.ids.pop())
        if verb == 'time':
            self.now = max(0, self.now + r.choice((0, 1, 1, 5, 10, 30, 100, -3)))
            return 'time %d' % self.now
        if verb == 'add':
            kind = r.choice(('user', 'group', 'container', 'container', 'organizationalUnit', 'organizationalUnit', 'computer'))
            guid = r.choice(self.guids) if r.random() < 0.9 else r.choice((1, 2, 0x99))
            controller = self.world.controllers.get(a)
            newest = controller is not None and controller.read.schema == 2
            if r.random() < (0.25 if newest else 0.01):
                kind = 'contact'
            if controller is not None and r.random() < 0.6:
                free = [g for g in self.guids if not any(oid.guid == g for oid in controller.read.objects)]
                if free:
                    guid = r.choice(free)
            text = self.text() if r.random() < 0.98 else r.choice(('""', '" x"', '"x "', '"a\\0ab"', '"%s"' % ('n' * 129)))
            return 'add %s #%x %s %s %s%s' % (a, guid, kind, self.parent(a), text, self.sets(kind, newest))
        if verb == 'modify' and self.long and r.random() < 0.95:
            return self.long_write(a)
        if verb == 'modify':
            guid = self.held_guid(a)
            return 'modify %s %s %s' % (a, guid, self.known_sets(a, guid))
        if verb == 'rename':
            return 'rename %s %s %s %s' % (a, self.held_guid(a), self.parent(a), self.text())
        if verb == 'delete':
            return 'delete %s %s' % (a, self.held_guid(a))
        if verb in ('link', 'unlink'):
            controller = self.world.controllers.get(a)
            if controller is not None and r.random() < 0.75:
                links = [key for key, row in controller.read.links.items() if row.present == (verb == 'unlink')]
                if links and (verb == 'unlink' or r.random() < 0.3):
                    start, attr, end = r.choice(links)
                    return '%s %s #%x %s #%x' % (verb, a, start.guid, model.show_attr(attr), end.guid)
                schema = controller.read.table()
                links = [(oid, attr) for oid, rows in controller.read.objects.items() if 3 not in rows
                         for attr in schema.may[rows[1].content] if attr in schema.back]
                if links:
                    oid, attr = r.choice(links)
                    return '%s %s #%x %s %s' % (verb, a, oid.guid, model.show_attr(attr), self.held_guid(a))
            attr = r.choice(('member', 'manager', 'member', 'mail', 'memberOf', 'managedBy', 'managedObjects', 'title'))
            return '%s %s %s %s %s' % (verb, a, self.held_guid(a), attr, self.held_guid(a))
        if verb == 'ask':
            bound = self.new('q')
            self.bound['q'].append(bound)
            return 'ask %s %s %d as %s%s' % (a, b, r.choice(self.most), bound, ' v1' if r.random() < 0.3 else '')
        if verb == 'serve':
            request = self.old('q')
            if request is None:
                return None
            bound = self.new('r')
            self.bound['r'].append(bound)
            made = self.world.requests.get(request)
            if made is not None and r.random() < 0.85:
                at = [n for n in self.names if n in self.world.controllers and self.world.controllers[n].read.dsa == made.source]
                a = r.choice(at) if at else a
            return 'serve %s %s as %s' % (a, request, bound)
        if verb == 'deliver':
            reply = self.old('r')
            if reply is None:
                return None
            made = self.world.replies.get(reply)
            if made is not None and r.random() < 0.9:
                at = [n for n in self.names if n in self.world.controllers and self.world.controllers[n].read.dsa == made.dest]
                a = r.choice(at) if at else a
            return 'deliver %s %s' % (a, reply)
        if verb in ('pull', 'cycle'):
            return '%s %s %s %d' % (verb, a, b, r.choice(self.most))
        if verb == 'ring':
            return self.ring(self.names)
        if verb == 'meta':
            return 'meta %s #%x' % (a, r.choice(self.guids))
        if verb in ('show', 'vector', 'marks', 'start', 'stop'):
            if verb in ('start',) and r.random() < 0.8:
                down = [n for n in self.names if n in self.world.controllers and self.world.controllers[n].standing != 'up']
                if down:
                    a = r.choice(down)
            return '%s %s' % (verb, a)
        if verb == 'stop after':
            return 'stop %s after %d %s' % (a, r.choice((0, 1, 2, 2, 3, 3, 4, 5, 7, 9)), r.choice(('kept', 'lost', 'torn')))
        if verb == 'fail after':
            return 'fail %s after %d' % (a, r.choice((0, 1, 2, 3, 3, 4, 6)))
        if verb == 'collect':
            return 'collect %s %d' % (a, r.choice((0, 0, 1, 5, 20, 50)))
        if verb in ('backup', 'snapshot'):
            kind = 'i' if verb == 'backup' else 's'
            bound = self.new(kind)
            self.bound[kind].append(bound)
            return '%s %s as %s' % (verb, a, bound)
        if verb == 'restore':
            image = self.old('i')
            if image is None:
                return None
            quarantined = [n for n in self.names if n in self.world.controllers and self.world.controllers[n].read.quarantined]
            if quarantined and r.random() < 0.8:
                a = r.choice(quarantined)
            return 'restore %s %s #%x' % (a, image, self.ids.pop())
        if verb == 'install':
            image = self.old('i')
            if image is None or len(self.names) >= 6:
                return None
            name = 'ABCDEFGH'[len(self.names)]
            self.names.append(name)
            return 'install %s #%x %s #%x' % (name, self.dsas.pop(), image, self.ids.pop())
        if verb == 'rollback':
            snapshot = self.old('s')
            return snapshot and 'rollback %s %s' % (a, snapshot)
        if verb == 'upgrade':
            return 'upgrade ' + a
        if verb == 'revive':
            image = self.old('i')
            if image is not None and r.random() < 0.8 and not self.lost(a, image):
                images = [other for other in self.bound['i'] if self.lost(a, other)]
                image = r.choice(images) if images else None
            if image is None:
                return self.line(r.choice(('backup', 'delete', 'add', 'link'))) if r.random() < 0.9 else None
            return self.revival(a, image)
        raise ValueError(verb)

    def lost(self, name, image):
        """The live objects of an image that aren't live at a controller, with their names."""
        controller, archive = self.world.controllers.get(name), self.world.images.get(image)
        if controller is None or archive is None:
            return {}
        held = {oid.guid for oid, rows in controller.read.objects.items() if 3 not in rows}
        return {oid.guid: rows[2].content for oid, rows in archive.objects.items() if 3 not in rows and oid.guid not in held}

    def revival(self, name, image):
        """A revival out of an image, most often of an object that is live there and isn't at the controller."""
        r, lost = self.r, self.lost(name, image)
        guid, parent, text = self.guid(), self.parent(name), self.text()
        if lost and r.random() < 0.9:
            guid, (old_text, old_parent) = r.choice(sorted(lost.items()))
            guid = '#%x' % guid
            text = model.show_text(old_text) if r.random() < 0.7 else text
            parent = '#%x' % old_parent if r.random() < 0.4 else parent
        if r.random() < 0.02:
            text = r.choice(('""', '" x"', '"%s"' % ('n' * 129)))
        return 'revive %s %s %s %s %s' % (name, guid, image, parent, text)

    def ring(self, names):
        """A ring of some of these, most often of those that are up."""
        r = self.r
        up = [n for n in names if n in self.world.controllers and self.world.controllers[n].standing == 'up']
        chosen = up if len(up) > 1 and r.random() < 0.8 else list(names)
        if len(chosen) < 2:
            return None
        chosen = r.sample(chosen, len(chosen) if r.random() < 0.6 else r.randint(2, len(chosen)))
        rounds = r.choice((1, 1, 1, 2, 2, 3, len(chosen) - 1, len(chosen) - 1, 2 * len(chosen) - 2, 2 * len(chosen) - 2, 20))
        if r.random() < 0.01:
            rounds = 126
        return 'ring %d %d %s' % (rounds, r.choice(self.most), ' '.join(chosen))

    def some(self, verb=None):
        if self.long:
            self.due()
        line = self.line(verb)
        if line:
            self.emit(line)

    def due(self):
        """Where a log is about to be written anew, most often one of the nine calls goes wrong, and the start behind it maybe too."""
        r = self.r
        for name, controller in list(self.world.controllers.items()):
            log = controller.read_log
            if controller.standing == 'up' and log.end - log.first + LONG_RECORD > log.first - log.place + model.RECORDS_MORE and r.random() < 0.7:
                calls = r.choice((0, 1, 2, 3, 3, 4, 4, 4, 5, 6, 7, 8, 9))
                self.emit(r.choice(('fail %s after %d' % (name, calls), 'stop %s after %d %s' % (name, calls, r.choice(('kept', 'lost', 'torn'))))))
                self.emit(self.long_write(name))
                if controller.standing != 'up':
                    if r.random() < 0.6:
                        self.emit(r.choice(('fail %s after 0' % name, 'stop %s after 0 %s' % (name, r.choice(('kept', 'lost', 'torn', 'torn'))))))
                        self.emit('start ' + name)
                    self.emit('start ' + name)
                self.emit('marks ' + name)

    def pattern(self):
        """A few lines that belong together, where the profile has the verbs."""
        r, has = self.r, {verb for verb, weight in self.weights.items() if weight > 0}
        a, b = self.two()
        kinds = ['ring'] * 3 * ('ring' in has) + ['fork'] * 2 * ('rollback' in has) + ['late'] * ('restore' in has) + ['dead'] * 2 * ('collect' in has) + ['spread']
        kinds += ['upgrades'] * ('upgrade' in has) + ['revived'] * 3 * ('revive' in has) + ['born twice'] * 2 * ({'revive', 'rollback'} <= has)
        kind = r.choice(kinds)
        if kind == 'upgrades':
            self.upgrades(a, b)
        elif kind == 'revived':
            self.revived(a, b)
        elif kind == 'born twice':
            self.born_twice(a, b)
        elif kind == 'ring':
            for name in self.names:
                if self.r.random() < 0.9:
                    self.emit('start ' + name)
            for _ in range(r.randint(0, 2)):
                self.some(r.choice(('add', 'modify', 'delete', 'link', 'rename')))
            if 'fail after' in has and r.random() < 0.5:
                self.some(r.choice(('stop after', 'fail after')))
            for _ in range(r.randint(1, 2)):
                self.emit(self.ring(self.names))
        elif kind == 'spread':
            for name in self.names:
                if name != a:
                    self.emit('cycle %s %s 10' % (name, a))
        elif kind == 'late':
            self.bind('i', 'backup %s as %%s' % a)
            if r.random() < 0.5:
                self.some('add')
                self.emit('pull %s %s 1' % (a, b))
            self.bind('q', 'ask %s %s %d as %%s' % (a, b, r.choice(self.most)))
            self.bind('r', 'serve %s %s as %%s' % (b, self.bound['q'][-1]))
            self.emit('restore %s %s #%x' % (a, self.bound['i'][-1], self.ids.pop()))
            self.emit('deliver %s %s' % (a, self.bound['r'][-1]))
        elif kind == 'fork':
            self.bind('s', 'snapshot %s as %%s' % a)
            for _ in range(r.randint(1, 3)):
                self.here(a)
            self.emit('%s %s %s %d' % (r.choice(('cycle', 'pull')), b, a, r.choice(self.most)))
            self.emit('rollback %s %s' % (a if r.random() < 0.85 else b, self.bound['s'][-1]))
            for _ in range(r.randint(0, 4)):
                self.here(a)
            if r.random() < 0.6:
                self.emit('%s %s %s %d' % (r.choice(('cycle', 'pull', 'pull')), a, b, r.choice((1, 1, 2, 10))))
        else:
            guid = self.held_guid(a)
            self.emit('cycle %s %s 10' % (b, a))
            self.emit('delete %s %s' % (a, guid))
            if r.random() < 0.5:
                self.emit('modify %s %s %s' % (b, guid, self.known_sets(b, guid)))
            for name in self.names:
                if name != a and r.random() < 0.5:
                    self.emit('cycle %s %s 10' % (name, a))
            self.now += r.choice((0, 10, 30))
            self.emit('time %d' % self.now)
            self.emit('collect %s %d' % (a, r.choice((0, 5, 20))))
            if r.random() < 0.5:
                self.emit('cycle %s %s 10' % (a, b))

    def upgrades(self, a, b):
        """All take the second schema, while a reply or a request may be under way."""
        r = self.r
        self.bind('q', 'ask %s %s %d as %%s' % (a, b, r.choice(self.most)))
        if r.random() < 0.5:
            self.bind('r', 'serve %s %s as %%s' % (b, self.bound['q'][-1]))
        for name in self.names:
            if r.random() < 0.9:
                self.emit('upgrade ' + name)
        if r.random() < 0.5:
            self.bind('r', 'serve %s %s as %%s' % (b, self.bound['q'][-1]))
        if self.bound['r']:
            self.emit('deliver %s %s' % (a, self.bound['r'][-1]))

    def revived(self, a, b):
        """A backup, deletions, and revivals at one or the other, under a former child too."""
        r = self.r
        if r.random() < 0.2:
            self.former_child(a, b)
            return
        for _ in range(r.randint(0, 3)):
            self.some(r.choice(('link', 'link', 'add')))
        self.bind('i', 'backup %s as %%s' % a)
        if r.random() < 0.5:
            self.emit('cycle %s %s 10' % (b, a))
            self.some('add')
        for _ in range(r.randint(1, 3)):
            self.emit('delete %s %s' % (a, self.held_guid(a)))
        for dest, source in r.choice(((), ((b, a),), ((b, a), (a, b)))):
            self.emit('cycle %s %s 10' % (dest, source))
        for _ in range(r.randint(1, 3)):
            self.emit(self.revival(r.choice((a, a, b)), self.bound['i'][-1]))
        for dest, source in r.choice(((), ((b, a),), ((b, a), (a, b)))):
            self.emit('cycle %s %s 10' % (dest, source))
        self.emit('show ' + a)

    def former_child(self, a, b):
        """One deletes a parent while the other adds below it, and revives it under what was added, or what stands below that."""
        free = [guid for guid in self.guids if not any(oid.guid == guid for name in (a, b) if name in self.world.controllers
                                                       for oid in self.world.controllers[name].read.objects)]
        if a == b or len(free) < 2:
            return
        parent, child = self.r.sample(free, 2)
        text = self.text()
        self.emit('add %s #%x container #1 %s' % (a, parent, text))
        self.emit('cycle %s %s 10000' % (b, a))
        self.emit('add %s #%x container #%x %s' % (b, child, parent, self.text()))
        self.bind('i', 'backup %s as %%s' % a)
        self.emit('delete %s #%x' % (a, parent))
        self.emit('cycle %s %s 10000' % (a, b))
        for _ in range(2):
            self.emit('revive %s #%x %s %s %s' % (a, parent, self.bound['i'][-1], self.r.choice(('#%x' % child, self.parent(a))), text))

    def born_twice(self, a, b):
        """A disk is put back, and its partner brings what a revival wrote there, at the number that the next one would take."""
        r, controller = self.r, self.world.controllers.get(a)
        if a == b or controller is None:
            return
        for name in (a, b):
            self.emit('start ' + name)
        self.emit('cycle %s %s 10000' % (b, a))
        self.bind('i', 'backup %s as %%s' % a)
        image = self.bound['i'][-1]
        live = sorted(oid.guid for oid, rows in controller.read.objects.items() if 3 not in rows)
        if len(live) < 2:
            return
        other, guid = ('#%x' % one for one in r.sample(live, 2))
        self.emit('delete %s %s' % (a, guid))
        self.emit('cycle %s %s 10000' % (b, a))
        self.bind('s', 'snapshot %s as %%s' % a)
        for text in ('"d1"', '"d2"')[:r.choice((2, 2, 2, 1))]:
            self.emit('modify %s %s description=%s' % (a, other, text))
        self.emit('revive %s %s %s #1 "again"' % (a, guid, image))
        by_link = r.random() < 0.5
        if not by_link:
            self.emit('delete %s %s' % (a, guid))
        self.emit('modify %s %s description="d3"' % (a, other if r.random() < 0.1 else guid))
        self.some('add')
        self.emit('cycle %s %s 10000' % (b, a))
        if by_link:
            self.emit('modify %s %s description="d4"' % (b, guid))
        self.emit('rollback %s %s' % (a, self.bound['s'][-1]))
        for _ in range(r.choice((2, 2, 2, 1, 3))):
            self.emit('pull %s %s 1' % (a, b))
        self.emit('revive %s %s %s #1 "again"' % (a, guid, image))

    def bind(self, kind, form):
        bound = self.new(kind)
        self.bound[kind].append(bound)
        self.emit(form % bound)

    def here(self, name):
        """A write at this controller, most often an add."""
        names, self.names = self.names, [name]
        try:
            self.some(self.r.choice(('add', 'add', 'add', 'modify', 'rename', 'delete', 'link')))
        finally:
            self.names = names

    def make(self):
        for _ in range(self.r.randint(1, 2) if self.long else self.r.randint(2, 4)):
            name = 'ABCD'[len(self.names)]
            self.names.append(name)
            self.emit('controller %s #%x #%x' % (name, self.dsas.pop(), self.ids.pop()))
        for _ in range(self.r.randint(0, 6)):
            self.some('add')
        for _ in range(self.r.choice((90, 180, 300)) if self.long else self.r.choice((15, 30, 60, 120))):
            if self.r.random() < 0.06:
                self.pattern()
            else:
                self.some()
        if self.r.random() < 0.7:
            for name in self.names:
                self.emit('stop ' + name)
                self.emit('start ' + name)
        if self.weights.get('ring') and self.r.random() < 0.8:
            self.emit('ring %d %d %s' % (2 * len(self.names) - 2, self.r.choice(self.most), ' '.join(self.names)))
        elif self.r.random() < 0.6:
            for _ in range(2):
                for k, name in enumerate(self.names):
                    self.emit('cycle %s %s %d' % (name, self.names[k - 1], self.r.choice(self.most)))
        for name in self.names:
            for verb in ('show', 'vector', 'marks'):
                self.emit('%s %s' % (verb, name))
            self.emit('meta %s #%x' % (name, self.r.choice(self.guids)))
        return ''.join(line + '\n' for line in self.lines)


def spoil_ring(r, lines):
    """One ring of the lines becomes another, most often one outside the grammar."""
    at = r.choice([k for k, line in enumerate(lines) if line.startswith('ring ')])
    tokens = lines[at].split(' ')
    how = r.randrange(8)
    if how == 0:
        tokens[1] = r.choice(('0', '126', '127', '01', 'x', '-1', '18446744073709551616'))
    elif how == 1:
        tokens[2] = r.choice(('0', '10000', '10001', '010', '4294967297'))
    elif how == 2:
        tokens = tokens[:4]
    elif how == 3:
        tokens.insert(r.randint(3, len(tokens)), r.choice(tokens[3:]))
    elif how == 4:
        tokens.insert(r.randint(3, len(tokens)), r.choice(('Z', 'a', '9', 'N' * 33, '_')))
    elif how == 5:
        tokens += ['Z%d' % k for k in range(64 - len(tokens[3:]) + r.randint(0, 1))]
    elif how == 6:
        tokens = tokens[:r.randint(1, 3)]
    else:
        tokens[r.randint(1, len(tokens) - 1)] += r.choice((' ', '   '))
    return lines[:at] + [' '.join(tokens)] + lines[at + 1:]


def spoil(r, text):
    """A text with one fault, or none by luck."""
    if '\nring ' in text and r.random() < 0.6:
        return '\n'.join(spoil_ring(r, text.split('\n'))).encode()
    raw = text.encode()
    for _ in range(r.randint(1, 2)):
        at = r.randrange(len(raw))
        how = r.randrange(4)
        if how == 0:
            raw = raw[:at] + raw[at + 1:]
        elif how == 1:
            raw = raw[:at] + bytes([r.choice(b' "\\#%0xA_,=\x7f\xff\n;-')]) + raw[at:]
        elif how == 2:
            raw = raw[:at] + bytes([r.choice(b' "\\#%019faZ\t\r\xc3\n')]) + raw[at + 1:]
        else:
            lines = raw.split(b'\n')
            k, j = r.randrange(len(lines)), r.randrange(len(lines))
            lines[k], lines[j] = lines[j], lines[k]
            raw = b'\n'.join(lines)
    return raw


def program_says(program, raw):
    try:
        done = subprocess.run([program, 'replay'], input=raw, stdout=subprocess.PIPE, stderr=subprocess.PIPE, timeout=60)
    except subprocess.TimeoutExpired:
        return b'(no end)', -1
    return done.stdout + done.stderr, done.returncode


def differs(program, raw):
    return program_says(program, raw) != model.run(raw)


def small(program, raw):
    """A smaller text that still differs, by dropping lines, and that is no bad text where the first wasn't."""
    status = model.run(raw)[1]
    lines = raw.split(b'\n')
    size = max(1, len(lines) // 2)
    while size >= 1:
        at, dropped = 0, False
        while at < len(lines):
            tried = lines[:at] + lines[at + size:]
            new = b'\n'.join(tried)
            if model.run(new)[1] == status and differs(program, new):
                lines, dropped = tried, True
            else:
                at += size
        if size == 1 and not dropped:
            break
        size = max(1, size // 2)
    return b'\n'.join(lines)


def first_difference(program, raw):
    mine, theirs = model.run(raw)[0].split(b'\n'), program_says(program, raw)[0].split(b'\n')
    for k in range(max(len(mine), len(theirs))):
        a = mine[k] if k < len(mine) else b'(end)'
        b = theirs[k] if k < len(theirs) else b'(end)'
        if a != b:
            return 'second reading: %s\nprogram:        %s' % (a.decode(errors='replace'), b.decode(errors='replace'))
    return 'status alone: second reading %d, program %d' % (model.run(raw)[1], program_says(program, raw)[1])


def main():
    words = sys.argv[1:]
    if words[0] == 'write':
        os.makedirs(words[3], exist_ok=True)
        profiles = words[4:] or list(PROFILES)
        for k in range(int(words[1])):
            profile = profiles[k % len(profiles)]
            text = Maker(int(words[2]) + k, profile).make()
            with open('%s/%s_%d.schedule' % (words[3], profile, int(words[2]) + k), 'wb') as file:
                file.write(model.transcript(text.encode()))
        return
    program, count, seed = words[1], int(words[2]), int(words[3])
    profiles = words[4:] or list(PROFILES)
    os.makedirs('differences', exist_ok=True)
    found, events = 0, 0
    for k in range(count):
        profile = profiles[k % len(profiles)]
        raw = Maker(seed + k, profile).make().encode()
        r = random.Random(seed + k)
        if r.random() < 0.15:
            raw = spoil(r, raw.decode())
        events += raw.count(b'\n')
        if k % 100 == 99:
            print('%d texts, %d lines, %d differ so far' % (k + 1, events, found), flush=True)
        if differs(program, raw):
            found += 1
            raw = small(program, raw)
            name = 'differences/%s_%d.schedule' % (profile, seed + k)
            with open(name, 'wb') as file:
                file.write(raw)
            print(name)
            print(raw.decode(errors='replace'))
            print(first_difference(program, raw), flush=True)
            if found >= 12:
                break
    print('%d texts, %d lines, %d differ' % (k + 1, events, found))


if __name__ == '__main__':
    main()
