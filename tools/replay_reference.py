#!/usr/bin/env python3
"""The lines of a replay, worked out another way than by the program, to compare with it.

Reads what the program `replay` reads and prints what it should print. It follows the rules of members, layers and volumes
slot by slot, and keeps the survey itself beside the recorder: a read that is answered is the last taken write by the rules, so it
is taken from there, and the columns are computed anew from it by `stripe_reference` and never recovered. So that a wrong rule
shows here too, every current column is held to what its member has, after every operation.

    tools/replay_reference.py < SCRIPT             the lines of one script
    tools/replay_reference.py --case               the worked case of the rules, as a script
    tools/replay_reference.py --make CODE C SEED   a script of C random-looking operations on a recorder with faults
    tools/replay_reference.py --worn CODE C SEED   the same with members that fail, are replaced and rebuilt all the while
    tools/replay_reference.py --scripts            the scripts that `replays` is run on, each with its length before it
    tools/replay_reference.py --texts < SCRIPTS    the lines of all of them
    tools/replay_reference.py --stats < SCRIPTS    how often each operation had each answer; fails where one never came
"""
import sys
from collections import Counter
from stripe_reference import BLOCK, q_of, xor

SLOTS, K, SPARES, BLOCKS = 6, 4, 2, 8
STRIPES = BLOCKS - SPARES
CELLS = 3
GONE, UNREADABLE, UNWRITABLE = 1, 2, 3


class Member:
    """A remap layer with two spares over a fault layer over eight blocks: a cell, or an image of zeros."""

    def __init__(self, image):
        self.image, self.data = image, [bytes(BLOCK)] * BLOCKS
        self.entries, self.round, self.moved, self.used = [], 0, {}, 0

    def plan(self, round_, kind, block):
        if len(self.entries) < 16:
            self.entries.append([round_, kind, block, 'active' if round_ == self.round else 'waiting'])

    def tick(self):
        if self.round < 65535:
            self.round += 1
            for e in self.entries:
                if e[3] == 'waiting' and e[0] == self.round:
                    e[3] = 'active'

    def fresh(self):
        """Moves are forgotten and faults at work end. Those planned for later rounds stay, and the count of ticks goes on."""
        self.moved, self.used = {}, 0
        for e in self.entries:
            if e[3] != 'waiting':
                e[3] = 'ended'
        if not self.image:
            self.data = [bytes(BLOCK)] * BLOCKS

    def on(self, kind, block, states=('active', 'spoiled')):
        return [e for e in self.entries if e[1] == kind and e[2] == block and e[3] in states]

    def gone(self):
        return any(e[1] == GONE and e[3] == 'active' for e in self.entries)

    def place(self, block):
        return self.moved.get(block, block)

    def readable(self, block):
        at = self.place(block)
        return not self.on(UNREADABLE, at) and not self.on(UNWRITABLE, at, ('spoiled',))

    def read(self, block):
        return self.data[self.place(block)]

    def write(self, block, bytes_):
        """True where the write is accepted."""
        if self.gone():
            return False
        while True:
            at = self.place(block)
            refused = self.on(UNWRITABLE, at)
            if not refused:
                self.data[at] = bytes_
                for e in self.on(UNREADABLE, at):
                    e[3] = 'ended'
                return True
            for e in refused:
                e[3] = 'spoiled'
            if self.used == SPARES:
                return False
            self.moved[block] = STRIPES + self.used
            self.used += 1


class Recorder:
    def __init__(self, code, entries):
        self.code, self.members = code, [Member(i >= CELLS) for i in range(SLOTS)]
        self.frontier, self.opened = [STRIPES] * SLOTS, [False] * SLOTS
        for kind, (round_, slot, block) in entries:
            if slot < SLOTS:
                self.members[slot].plan(round_, kind, block)
        self.content, self.known = [bytes(BLOCK)] * (STRIPES * K), {}
        for s in range(STRIPES):
            for m in self.members:
                m.write(s, bytes(BLOCK))

    def columns(self, s):
        data = self.content[s * K:(s + 1) * K]
        if self.known.get(s, [])[:K] != data:
            p = bytes(BLOCK)
            for block in data:
                p = xor(p, block)
            self.known[s] = data + [p, q_of(self.code, data, p)]
        return self.known[s]

    def column(self, s, i):
        """What slot i is to hold for a stripe."""
        return self.columns(s)[(i - s) % SLOTS]

    def slot(self, s, c):
        return (c + s) % SLOTS

    def missing(self, s):
        """The causes of the missing slots of a stripe."""
        lost = {}
        for i, m in enumerate(self.members):
            if m.gone():
                lost[i] = 'gone'
            elif s >= self.frontier[i]:
                lost[i] = 'behind'
            elif not m.readable(s):
                lost[i] = 'unreadable'
        return lost

    def hold(self):
        """Every current column is in its member."""
        for s in range(STRIPES):
            lost = self.missing(s)
            for i, m in enumerate(self.members):
                assert i in lost or m.read(s) == self.column(s, i), f'slot {i} does not hold stripe {s}'

    def union(self, s):
        return sum(1 << i for i in self.missing(s))

    def read(self, a):
        if a >= STRIPES * K:
            return 2, 0
        s, c = divmod(a, K)
        lost = self.missing(s)
        if self.slot(s, c) in lost and len(lost) > 2:
            return 4, self.union(s)
        return 0, self.content[a][0]

    def write(self, a, byte):
        if a >= STRIPES * K:
            return 2, 0
        s, c = divmod(a, K)
        if len(self.missing(s)) > 2:
            return 4, self.union(s)
        self.content[a] = bytes([byte]) * BLOCK
        for i in (self.slot(s, t) for t in (c, K, K + 1)):
            if not self.members[i].gone() and self.frontier[i] > s:
                self.members[i].write(s, self.column(s, i))
        lost = len(self.missing(s))
        return (5, self.union(s)) if lost > 2 else (0, lost)

    def scrub(self, s):
        if s >= STRIPES:
            return 2, 0
        lost = self.missing(s)
        if len(lost) > 2:
            return 4, self.union(s)
        mended = 0
        for i in sorted(lost):
            if lost[i] == 'unreadable':
                mended += self.members[i].write(s, self.column(s, i))
        return 0, mended

    def replace(self, i):
        if i >= SLOTS:
            return 2, 0
        if self.opened[i]:
            return 6, 0
        self.members[i].fresh()
        self.frontier[i] = 0
        return 0, 0

    def open(self, i):
        if i >= SLOTS:
            return 2, 0
        if self.opened[i]:
            return 6, 0
        if self.frontier[i] == STRIPES:
            return 7, 0
        self.opened[i] = True
        return 0, 0

    def step(self, i):
        if i >= SLOTS or not self.opened[i]:
            return 8, 0
        s = self.frontier[i]
        if s == STRIPES:
            return 7, 0
        if len(self.missing(s)) > 2:
            return 4, self.union(s)
        if not self.members[i].write(s, self.column(s, i)):
            return 9, 0
        self.frontier[i] += 1
        return 0, self.frontier[i]

    def close(self, i):
        if i >= SLOTS or not self.opened[i]:
            return 8, 0
        self.opened[i] = False
        return 0, self.frontier[i]

    def rebuild(self, i, most):
        """Open, at most so many steps, close. The line is that of the refusal, if there was one, else that of the closing."""
        refusal, value = self.open(i)
        if refusal:
            return refusal, value
        made = 0
        while made < most and self.frontier[i] < STRIPES and not refusal:
            refusal, value = self.step(i)
            made += 1
        closed = self.close(i)
        return (refusal, value) if refusal else closed

    def act(self, op, x, y):
        if op == 0:
            for m in self.members:
                m.tick()
            return 0, 0
        if op == 1:
            return self.read(x)
        if op == 2:
            return self.write(x, y % 256)
        if op == 3:
            return self.scrub(x)
        if op == 4:
            return self.replace(x)
        if op == 5:
            return self.rebuild(x, y)
        return 10, 0


def replay(script):
    def number(i):
        return int.from_bytes(script[i:i + 2], 'little')
    f, c, code = number(0), number(2), number(4)
    if f > 16 or c > 1000 or code > 2 or len(script) != 6 + 7 * f + 5 * c:
        return 'bad script\n'
    triples, acts = 6 + f, 6 + 7 * f
    pairs = acts + c
    entries = [(script[6 + i], tuple(number(triples + 6 * i + 2 * j) for j in range(3))) for i in range(f)]
    recorder = Recorder(code, entries)
    lines = []
    for i in range(c):
        op = script[acts + i]
        refusal, value = recorder.act(op, number(pairs + 4 * i), number(pairs + 4 * i + 2))
        recorder.hold()
        lines.append(f'{i} {op} {refusal} {value}\n')
    return ''.join(lines)


def encode(code, entries, operations):
    def two(n):
        return n.to_bytes(2, 'little')
    out = two(len(entries)) + two(len(operations)) + two(code)
    out += bytes(kind for kind, _ in entries) + b''.join(two(n) for _, t in entries for n in t)
    return out + bytes(op for op, _, _ in operations) + b''.join(two(x) + two(y) for _, x, y in operations)


def drawing(seed):
    """Draws numbers below n, one after the other."""
    state = seed

    def draw(n):
        nonlocal state
        state = (state * 1664525 + 1013904223) % 2 ** 32
        return (state >> 16) % n
    return draw


def make(code, count, seed):
    draw = drawing(seed)
    kinds = (1, 2, 2, 2, 3, 3, 2, 3, 2, 3, 2, 3, 9, 1, 3, 1)
    entries = [(kind, (draw(50) + (20 + 2 * i) * (kind == 1), draw(7), draw(8))) for i, kind in enumerate(kinds)]
    operations = []
    for _ in range(count):
        op = (0, 1, 1, 1, 2, 2, 2, 3, 3, 1 if draw(20) else 7)[draw(10)]
        operations.append((op, draw(26) if op in (1, 2) else draw(7), draw(65536)))
    return encode(code, entries, operations)


def worn(code, count, seed):
    """All operations, and faults over many rounds. Every other replacement and most rebuilds are of the slot at hand: the one that
    was to fail last, or the one replaced last."""
    draw = drawing(seed)
    kinds = (1, 2, 3, 2, 1, 3, 3, 2, 1, 3, 2, 3, 1, 2, 1, 9)
    entries = [(kind, (6 * i + draw(9), draw(SLOTS), (6 + draw(2) if draw(2) else draw(6)) if kind == 3 else draw(6))) for i, kind in enumerate(kinds)]
    round_, slot, operations = 0, 0, []
    for _ in range(count):
        op = (0, 1, 1, 1, 1, 1, 2, 2, 2, 2, 3, 3, 4 if not draw(5) else 2, 5, 5, 5 if draw(6) else 6 + draw(250))[draw(16)]
        x, y = draw(7), draw(65536)
        if op == 0:
            round_ += 1
            slot = next((t[1] for kind, t in entries if kind == 1 and t[0] == round_), slot)
        elif op in (1, 2):
            x = draw(24) if draw(30) else 24 + draw(9)
        elif op == 4:
            x = slot if draw(2) else x
            slot = x
        elif op == 5:
            x, y = slot if draw(4) else x, draw(8)
        operations.append((op, x, y))
    return encode(code, entries, operations)


CASE = encode(0, [(1, (1, 1, 0)), (1, (1, 2, 0)), (1, (2, 3, 0))], [(2, 1, 7), (0, 0, 0), (1, 1, 0), (0, 0, 0), (1, 1, 0)])


def head(f, c, code, length):
    """A script of zeros with this head and length."""
    return b''.join(n.to_bytes(2, 'little') for n in (f, c, code)) + bytes(length - 6)


BAD = [b'', b'\0', CASE[:-1], CASE + b'\0', head(17, 0, 0, 6 + 7 * 17), head(0, 1001, 0, 6 + 5 * 1001), head(0, 0, 3, 6), head(0, 0, 256, 6)]
EDGES = [head(0, 0, 2, 6), head(16, 1, 1, 6 + 7 * 16 + 5), head(0, 1000, 2, 6 + 5 * 1000)]


def torn(code):
    """From round 1 on, slots 1, 4 and 5 refuse block 0 and have no spare for it: a write to block 1 is taken and torn."""
    entries = [(UNWRITABLE, (1, slot, block)) for slot in (1, 4, 5) for block in (0, 6, 7)]
    operations = [(2, 1, 9), (1, 1, 0), (0, 0, 0), (1, 1, 0), (2, 1, 300), (1, 1, 0), (1, 0, 0), (2, 0, 5), (3, 0, 0), (3, 1, 0), (2, 4, 8), (1, 4, 0)]
    return encode(code, entries, operations)


def torn_of_two(code):
    """A slot is gone and one refuses, so that one more refused column tears a write; a write with two missing is answered."""
    entries = [(GONE, (1, 0, 0))] + [(UNWRITABLE, (1, slot, block)) for slot in (4, 5) for block in (0, 6, 7)]
    return encode(code, entries, [(0, 0, 0), (2, 2, 1), (1, 2, 0), (1, 0, 0), (1, 1, 0), (2, 7, 3), (1, 7, 0), (3, 2, 0)])


def mended(code):
    """Unreadable blocks are recovered, mended by scrubs and by writes, and moved to spares where the block refuses."""
    entries = [(UNREADABLE, (1, 2, 1)), (UNREADABLE, (1, 3, 1)), (UNREADABLE, (2, 4, 1)), (UNWRITABLE, (2, 4, 1)), (UNREADABLE, (3, 0, 5))]
    operations = [(2, a, 17 * a + 3) for a in range(24)] + [(0, 0, 0)] + [(1, a, 0) for a in range(24)] + [(3, 1, 0), (3, 1, 0), (0, 0, 0)]
    operations += [(1, 6, 0), (3, 1, 0), (1, 6, 0), (0, 0, 0), (1, 21, 0), (2, 21, 77), (1, 21, 0), (3, 5, 0), (1, 23, 0)]
    return encode(code, entries, operations)


def bounds(code):
    """Numbers at and beyond every bound, operations that are not known, and entries for slots that there are not."""
    entries = [(GONE, (0, 6, 0)), (GONE, (0, 65535, 0)), (0, (0, 0, 0)), (4, (0, 1, 0)), (UNREADABLE, (0, 2, 8))]
    operations = [(1, 23, 0), (1, 24, 0), (1, 65535, 0), (2, 23, 255), (1, 23, 0), (2, 24, 1), (2, 65535, 1), (3, 5, 0), (3, 6, 0), (3, 65535, 0)]
    operations += [(op, 0, 0) for op in (4, 5, 6, 10, 255)] + [(2, 0, 256), (1, 0, 0), (2, 0, 65535), (1, 0, 0)]
    return encode(code, entries, operations)


WRITES = [(2, a, 17 * a + 3) for a in range(24)]
READS = [(1, a, 0) for a in range(24)]
TICK = (0, 0, 0)


def swapped(code):
    """A cell is swapped while the recorder is in use: blocks come back through recovery before, below and beyond the frontier, and
    when it is rebuilt it serves for two others that go."""
    entries = [(GONE, (1, 4, 0)), (GONE, (1, 5, 0))]
    operations = WRITES + [(4, 1, 0)] + READS + [(5, 1, 2), (2, 1, 201), (2, 0, 202), (2, 20, 203), (2, 13, 204)] + READS
    operations += [(3, 0, 0), (3, 5, 0), (5, 1, 6), (5, 1, 6), (5, 1, 0), TICK] + READS + [(2, 2, 205), (1, 2, 0), (2, 21, 206), (1, 21, 0)]
    return encode(code, entries, operations)


def stale(code):
    """An image keeps its old bytes when it is replaced, and everything is written anew before it is rebuilt: never do the old
    bytes come back, nor where a block had been moved, and the slot serves when two others go, as far as it is rebuilt."""
    entries = [(UNWRITABLE, (0, 3, 1)), (GONE, (1, 0, 0)), (GONE, (1, 2, 0))]
    operations = WRITES + [(4, 3, 0)] + READS + [(2, a, 255 - a) for a in range(24)] + READS + [(5, 3, 1)] + READS + [(5, 3, 3)] + READS
    operations += [TICK] + READS + [(2, 0, 1), (2, 15, 2), (2, 16, 3), (3, 3, 0), (3, 4, 0), (5, 3, 1), (5, 3, 0)] + READS
    return encode(code, entries, operations)


def stale_twice(code):
    """Two images are replaced, and rebuilt by turns in few steps, with writes between."""
    operations = WRITES + [(4, 4, 0), (4, 5, 0)]
    for turn in range(6):
        operations += [(5, 4 + turn % 2, 1 + turn)] + [(2, a, 40 * turn + a) for a in range(turn % 3, 24, 3)] + READS
    return encode(code, [], operations + [(5, 4, 65535), (5, 5, 65535), (5, 4, 1), (5, 5, 1)])


def thrice(code):
    """A third slot is replaced, and reads, writes, scrubs and steps are refused for loss: all three are behind. Blocks on the slots
    that stay are read still. A stripe that was rebuilt in time is kept."""
    operations = WRITES + [(4, 0, 0), (4, 5, 0), (5, 5, 2), (3, 0, 0), (4, 3, 0)] + READS + [(2, 0, 1), (2, 4, 2), (2, 8, 3), (2, 23, 4)]
    operations += [(3, 1, 0), (3, 2, 0), (5, 3, 6), (5, 0, 6), (5, 5, 6), (5, 3, 0), (5, 0, 0), (5, 5, 0), (4, 0, 0), (5, 0, 1)] + READS
    return encode(code, [], operations)


def behind_and_more(code):
    """Loss of all three causes: a slot is gone, one behind, one unreadable. A rebuild stops where two others are unreadable."""
    entries = [(UNREADABLE, (1, 0, 3)), (UNREADABLE, (1, 3, 3)), (UNREADABLE, (1, 1, 1)), (UNREADABLE, (2, 5, 4)), (GONE, (2, 1, 0))]
    operations = WRITES + [(4, 2, 0), TICK] + READS + [(3, 1, 0), (3, 1, 0), (5, 2, 65535), (5, 2, 0), (2, 12, 9), (3, 3, 0), TICK] + READS
    operations += [(3, 4, 0), (2, 16, 1), (5, 2, 5), (4, 1, 0), (5, 1, 6), (5, 1, 0), (3, 2, 0), (5, 2, 0)] + READS
    return encode(code, entries, operations)


def torn_behind(code):
    """A write is taken and torn with a slot behind: the other two refuse it, with no spare left."""
    entries = [(UNWRITABLE, (1, slot, block)) for slot in (4, 5) for block in (0, 6, 7)]
    operations = [(2, 1, 9), (4, 1, 0), TICK, (1, 1, 0), (2, 1, 10), (1, 1, 0), (1, 0, 0), (5, 1, 6), (3, 0, 0), (2, 4, 7), (1, 4, 0), (5, 4, 1)]
    return encode(code, entries, operations)


def step_gone(code):
    """A member goes while it is being rebuilt: a step is refused by it, and its frontier stays until it is replaced anew."""
    operations = WRITES + [(4, 2, 0), (5, 2, 2), TICK, (5, 2, 6), (5, 2, 0), (1, 2, 0), (1, 0, 0), (5, 2, 1), (2, 2, 8), (3, 0, 0)]
    operations += [(4, 2, 0), (5, 2, 0), (5, 2, 5), (5, 2, 5), (5, 2, 5)] + READS + [TICK, (5, 2, 1), (3, 1, 0), (4, 2, 0), (5, 2, 9)] + READS
    return encode(code, [(GONE, (1, 2, 0)), (GONE, (2, 2, 3))], operations)


def step_refused(code):
    """A replaced member refuses block 3 and both spares, by faults that were planned for after the replacement: steps come to there
    and no further. Replaced anew it takes all, for its faults have ended."""
    entries = [(UNWRITABLE, (1, 4, block)) for block in (3, 6, 7)]
    operations = WRITES + [(4, 4, 0), TICK, (5, 4, 2), (5, 4, 6), (5, 4, 1), (5, 4, 0), (2, 12, 5), (2, 8, 6)] + READS
    return encode(code, entries, operations + [(3, 3, 0), (4, 4, 0), (5, 4, 6), (5, 4, 6)] + READS)


def spares_again(code):
    """Both spares of a slot are used, and after its replacement both are there again: block 0 is refused, moved to spare 6 and then
    to spare 7, twice. The third time there is none, before a last replacement."""
    entries = [(UNWRITABLE, (0, 3, 0)), (UNWRITABLE, (1, 3, 6)), (UNWRITABLE, (2, 3, 0)), (UNWRITABLE, (3, 3, 6)), (UNWRITABLE, (4, 3, 7))]
    turn = [(2, 3, 50), (1, 3, 0), TICK, (2, 3, 51), (1, 3, 0)]
    operations = turn + [(4, 3, 0), (1, 3, 0), (5, 3, 6), (1, 3, 0), TICK] + turn + [TICK, (2, 3, 52), (1, 3, 0), (3, 0, 0), (5, 3, 1), (4, 3, 0), (5, 3, 6), (2, 3, 53), (1, 3, 0)]
    return encode(code, entries, operations)


def moves_forgotten(code):
    """Block 2 of a slot was moved to spare 6, and after the replacement it stands at its own number again: a fault there makes it
    unreadable, and one at the spare does not."""
    entries = [(UNWRITABLE, (0, slot, 2)) for slot in (0, 5)] + [(UNREADABLE, (1, slot, 6)) for slot in (0, 5)] + [(UNREADABLE, (2, slot, 2)) for slot in (0, 5)]
    operations = WRITES + [(4, 0, 0), (5, 0, 6), (4, 5, 0), (5, 5, 3), TICK, (3, 2, 0), TICK, (3, 2, 0), (3, 2, 0), (5, 5, 6)]
    return encode(code, entries, operations + READS)


def spares_in_turn(code):
    """Blocks 1 and 3 of a slot refuse when its frontier is 3. A write to stripe 3 does not go there and uses no spare, so that one to
    stripe 1 has spare 6, and the step spare 7: when spare 6 turns unreadable, stripe 1 is to be mended."""
    entries = [(UNWRITABLE, (1, 4, 1)), (UNWRITABLE, (1, 4, 3)), (UNREADABLE, (2, 4, 6))]
    operations = WRITES + [(4, 4, 0), (5, 4, 3), TICK, (2, 13, 90), (2, 7, 91), (5, 4, 6), TICK, (3, 3, 0), (3, 1, 0), (3, 1, 0)]
    return encode(code, entries, operations + READS)


def slots_bounds(code):
    """Slots at and beyond the bound, rebuilds by no steps, of slots that are whole, and by more steps than there are stripes."""
    operations = [(4, 6, 0), (4, 65535, 0), (5, 6, 1), (5, 65535, 65535), (5, 0, 0), (5, 5, 65535), (4, 5, 65535), (5, 5, 0), (5, 5, 0), (5, 5, 1)]
    operations += [(4, 5, 0), (5, 5, 0), (5, 5, 65535), (5, 5, 0), (4, 0, 0), (4, 0, 0), (5, 0, 5), (5, 0, 1), (5, 0, 1), (5, 6, 0), (6, 0, 0), (255, 0, 0)]
    return encode(code, [], operations)


SWAPS = (swapped, stale, stale_twice, thrice, behind_and_more, torn_behind, step_gone, step_refused, spares_again, moves_forgotten,
         spares_in_turn, slots_bounds)
WORN = ((0, 33), (1, 88), (2, 96))


def scripts():
    made = [make(code, 60, seed) for code in range(3) for seed in (1, 2, 3, 4)] + [make(code, 1000, seed) for code, seed in ((0, 25), (1, 32), (2, 3))]
    made = [shape(code) for code in range(3) for shape in (torn, torn_of_two, mended, bounds)] + made
    return [CASE] + BAD + EDGES + made + [shape(code) for code in range(3) for shape in SWAPS] + [worn(code, 1000, seed) for code, seed in WORN]


def texts(held):
    """The text of each script."""
    out = []
    while len(held) >= 2:
        end = 2 + int.from_bytes(held[:2], 'little')
        out.append(replay(held[2:end]))
        held = held[end:]
    return out


ANSWERS = {0: (0,), 1: (0, 2, 4), 2: (0, 2, 4, 5), 3: (0, 2, 4), 4: (0, 2), 5: (0, 2, 4, 7, 9), 'other': (10,)}


def stats(held):
    """How often each operation had each answer. Those that can come between operations, and no others, are to come."""
    all_, pairs = texts(held), Counter()
    for line in ''.join(all_).splitlines():
        if line != 'bad script':
            op, refusal = map(int, line.split()[1:3])
            pairs[op if op in ANSWERS else 'other', refusal] += 1
    print(f'{len(all_)} scripts, {sum(len(t.splitlines()) for t in all_)} lines, {sum(pairs.values())} operations')
    for op, refusals in ANSWERS.items():
        print(f'{op}:', ', '.join(f'{r} {pairs[op, r]} times' for r in refusals))
    return set(pairs) == {(op, r) for op, refusals in ANSWERS.items() for r in refusals}


if __name__ == '__main__':
    if sys.argv[1:2] == ['--make']:
        sys.stdout.buffer.write(make(*map(int, sys.argv[2:5])))
    elif sys.argv[1:2] == ['--worn']:
        sys.stdout.buffer.write(worn(*map(int, sys.argv[2:5])))
    elif sys.argv[1:2] == ['--case']:
        sys.stdout.buffer.write(CASE)
    elif sys.argv[1:2] == ['--scripts']:
        sys.stdout.buffer.write(b''.join(len(s).to_bytes(2, 'little') + s for s in scripts()))
    elif sys.argv[1:2] == ['--texts']:
        sys.stdout.write(''.join(texts(sys.stdin.buffer.read())))
    elif sys.argv[1:2] == ['--stats']:
        sys.exit(not stats(sys.stdin.buffer.read()))
    else:
        sys.stdout.write(replay(sys.stdin.buffer.read()))
