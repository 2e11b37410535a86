#!/usr/bin/env python3
"""The generated schedule of a number, apart from the program: its text, and what its run comes to by the second reading.

generated.py N             writes the schedule's text
generated.py sum N         runs it by the second reading, and writes the summary line
generated.py compare PROGRAM N..    compares the program's summary line with that
"""
import subprocess
import sys
import second_reading as model

ROUND = ['cycle B A 50', 'cycle C B 50', 'cycle D C 50', 'cycle A D 50']


class Draws:
    """Pseudo-random numbers, from a seed."""
    def __init__(self, seed):
        self.x = seed

    def draw(self, below):
        self.x = (self.x * 6364136223846793005 + 1442695040888963407) % 2**64
        return (self.x >> 33) % below


def schedule(n):
    """The lines of the schedule."""
    draws = Draws(n)
    yield 'time 1000'
    for name in 'abcd':
        yield 'controller %s #%s0 #%s1' % (name.upper(), name, name)
    for g in range(10):
        yield 'add A #%x group #1 "Group %d" groupType=2' % (0x100 + g, g)
    yield from ROUND
    for k in range(5 * n):
        at = 'ABCD'[k % 4]
        if k == 2 * n:
            yield 'backup B as image'
        if k == 3 * n:
            yield 'cycle A B 50'
            yield 'restore B image #b2'
            yield 'cycle B A 50'
        yield 'add %s #%x user #1 "Person %d" sAMAccountName="p%d"' % (at, 0x1000 + k, k, k)
        yield 'link %s #%x member #%x' % (at, 0x100 + k % 10, 0x1000 + k)
        if k % 7 == 6:
            i, j, luck = draws.draw(4), draws.draw(3), draws.draw(4)
            p, q = 'ABCD'[i], 'ABCD'[(i + 1 + j) % 4]
            if luck == 0:
                yield 'ask %s %s 3 as q%d' % (p, q, k)
                yield 'serve %s q%d as r%d' % (q, k, k)
            else:
                yield 'pull %s %s 3' % (p, q)
    yield from ROUND * 6
    yield 'time 2000'
    for k in range(9, 5 * n, 10):
        yield 'delete A #%x' % (0x1000 + k)
    yield from ROUND * 6
    yield 'time 100000'
    for name in 'ABCD':
        yield 'collect %s 5000' % name
    yield from ROUND


def summary(n):
    """What its run comes to, by the second reading."""
    world, refused, removed = model.World(), 0, 0
    for line in schedule(n):
        for answer in world.step(model.read_line(line)):
            _, _, result = answer.partition(': ')
            refused += result.startswith('refused ')
            if result.startswith('ok removed='):
                removed += int(result[len('ok removed='):])
    held = [world.up(name).read for name in 'ABCD']
    directories = [model.View(state).directory() for state in held]
    links = sum(row.present for row in held[0].links.values())
    equal = all(directory == directories[0] for directory in directories)
    return 'exercise %d: objects=%d links=%d refused=%d collected=%d equal=%s' % (
        n, len(directories[0]), links, refused, removed, str(equal).lower())


def main(words):
    if len(words) == 1:
        print('\n'.join(schedule(int(words[0]))))
    elif words[0] == 'sum':
        print(summary(int(words[1])))
    else:
        for n in words[2:]:
            told = subprocess.run([words[1], 'exercise', n], capture_output=True, text=True)
            due = summary(int(n)) + '\n'
            print('%s: %s' % (n, 'same' if (told.returncode, told.stdout) == (0, due) else 'DIFFERENT\n%s%s' % (told.stdout, due)))


if __name__ == '__main__':
    main(sys.argv[1:])
