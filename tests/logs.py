#!/usr/bin/env python3
"""Writes logs of call records: logs.py FAMILY SEED COUNT | logs.py edges | logs.py samples DIR.

logs.py replay reads records from standard input and prints the model's own printed replay.
"""
import random
import sys

sys.dont_write_bytecode = True  # leaves the tree as it is
import logs_edges  # noqa: E402
import logs_samples  # noqa: E402
from logs_model import EVENT, FLAG, MESSAGE, NONE, READY, SEMAPHORE, Model, pack, record, records  # noqa: E402

# Weights of the kinds that a family is about; every other kind has weight 1.
FAMILIES = {
    'mixed': {1: 14, 2: 6, 3: 2, 4: 4, 5: 3, 6: 4, 7: 5, 8: 3, 11: 3, 14: 3, 16: 3, 17: 2, 18: 10,
              19: 8, 20: 4, 21: 8, 22: 6, 23: 6, 24: 8, 25: 3, 26: 12, 27: 10, 28: 5, 29: 4, 30: 4,
              31: 3, 32: 2, 33: 6, 34: 8},
    'ticks': {1: 70, 2: 6, 7: 20, 16: 8, 17: 4, 18: 12, 21: 8, 27: 8},
    'semaphores': {1: 10, 2: 4, 14: 8, 15: 4, 16: 5, 17: 4, 18: 35, 19: 25, 28: 12},
    'messages': {1: 8, 2: 4, 24: 20, 25: 8, 26: 35, 27: 30},
    'events': {1: 8, 2: 4, 20: 20, 21: 30, 22: 18, 23: 18, 29: 10, 30: 10},
    'priorities': {1: 8, 2: 12, 3: 6, 4: 35, 5: 20, 6: 15, 7: 6, 18: 8, 19: 6, 21: 5},
    'regions': {1: 8, 2: 4, 8: 20, 9: 15, 10: 5, 11: 20, 12: 15, 13: 5, 18: 8, 19: 8, 22: 4, 6: 4},
    'flags': {1: 14, 2: 5, 3: 2, 4: 5, 5: 3, 6: 3, 7: 4, 8: 3, 11: 4, 12: 2, 18: 3, 19: 3, 21: 3, 22: 3,
              26: 3, 27: 3, 31: 6, 32: 10, 33: 40, 34: 16},
}
# How often a family pushes the critical level with a flag's pend behind it, which passes nowhere else.
FLAG_PENDS = {'flags': 0.2, 'mixed': 0.03, 'ticks': 0.02, 'priorities': 0.02}
# Refusals that a family brings about on purpose; the kinds that can give each.
SUITABLE = {
    'mixed': range(1, 13),
    'ticks': (1, 2, 3, 4, 5, 6, 12),
    'semaphores': (1, 2, 3, 4, 5, 6, 7, 10, 12),
    'messages': (1, 2, 4, 5, 6, 7, 8, 9),
    'events': (1, 2, 3, 4, 5, 6),
    'priorities': (1, 2, 4, 5, 6, 7),
    'regions': (1, 2, 3, 4, 5, 6, 7, 11),
    'flags': (1, 2, 3, 4, 5, 6, 7, 10),
}
THREAD_CALLS = [*range(3, 28), *range(31, 35)]
GIVERS = {1: range(256), 2: THREAD_CALLS, 3: (1, 28, 29, 30), 4: THREAD_CALLS + [28, 29, 30],
          5: (2, 4, 7, 14, 16, 20, 26, 27), 6: (3, 6, 7, 18, 21, 27, 33), 7: (2, 8, 11, 14, 24, 31),
          8: (25, 26), 9: (25, 26), 10: (15, 32), 11: (9, 10, 12, 13), 12: (17,)}
SPOILS = (0, 1, 8, 16, 31, 32, 64, 255, 256, 32768, 65535, 65536, 2**32 - 1)
WIDTHS = (256, 256, 65536, 2**32, 2**32, 2**32)


class Generator:
    def __init__(self, family, seed, count):
        self.rng = random.Random(f'{family} {seed}')
        self.family, self.count = family, count
        self.crowd = self.rng.choice((4, 8, 20))  # about how many threads live
        self.model, self.log, self.due = Model(), [], []

    def emit(self, r):
        self.log.append(r)
        return self.model.call(r)[0]

    # ---- fields that mostly mean something ----

    def mostly(self, good, limit, percent=95):
        good = list(good)
        if good and self.rng.random() * 100 < percent:
            return self.rng.choice(good)
        return self.rng.randrange(limit)

    def priority(self):
        return self.mostly((1, 2, 3, 4, 5, 5, 5, 6, 30), 32)

    def time(self):
        if self.rng.random() < 0.02:  # these would end early if cut to fewer bits
            return self.rng.choice((257, 65537, 2**24 + 1, 2**31 + 1, 2**32 - 1))
        return self.rng.choice((1, 1, 2, 2, 3, 4, 5, 8))

    def timeout(self):
        others = len(self.model.standing(READY)) > 2  # else nobody might be left to wake it
        return 0 if others and self.rng.random() < 0.3 else self.time()

    def bit_mask(self):
        few = [sum(1 << self.rng.randrange(6) for _ in range(n)) for n in (0, 1, 1, 2, 3)]
        return self.mostly(few, 2**32, 90)

    def message(self):
        held = [m for m, (o, ch, _) in self.model.messages.items() if o == self.model.runner and not ch]
        return self.mostly(held or self.model.messages, 64, 80)

    def semaphore(self, kind):
        """Pends prefer those at 0 and posts those with waiters."""
        m = self.model
        waited = {t.object for t in m.threads.values() if t.condition == SEMAPHORE}
        wanted = {18: [s for s in m.semaphores if m.semaphores[s][0] == 0],
                  19: waited, 28: waited}.get(kind)
        return self.mostly(sorted(wanted), 18, 98) if wanted and self.rng.random() < 0.6 \
            else self.mostly(m.semaphores, 18)

    def flag(self, kind):
        """Pends and posts prefer those with waiters, destroys those without."""
        waited = {t.object for t in self.model.threads.values() if t.condition == FLAG}
        wanted = self.model.flags - waited if kind == 32 else waited
        return self.rng.choice(sorted(wanted)) if wanted and self.rng.random() < 0.6 \
            else self.mostly(sorted(self.model.flags), 18)

    def bit(self):
        """Half of the time a bit that some waiter's event looks at."""
        m, mask = self.model, 0
        for t in m.threads.values():
            mask |= m.events[t.object][1] if t.condition == EVENT else 0
        wanted = [i for i in range(32) if mask >> i & 1] if self.rng.random() < 0.5 else ()
        return self.mostly(wanted or range(6), 34)

    def target(self):
        """Thread and channel of a message post; half of the time one that waits for it."""
        waiting = [i for i, t in self.model.threads.items() if t.condition == MESSAGE]
        if waiting and self.rng.random() < 0.5:
            to = self.rng.choice(waiting)
            mask = self.model.threads[to].object
            return to, self.rng.choice([c for c in range(1, 16) if mask >> (c - 1) & 1])
        return self.mostly(self.model.threads, 34), self.mostly((1, 1, 2, 2, 3, 15), 18)

    def fields(self, kind):
        """a, b, c, d of a plausible record of that kind."""
        rng, m = self.rng, self.model
        if kind in (3, 4, 5):
            return self.mostly(m.threads, 34), self.priority() if kind == 4 else 0
        if kind in (15, 16, 17, 18, 19, 28):
            times = {16: (self.time(), self.time()), 18: (self.timeout(),)}.get(kind, ())
            return (self.semaphore(kind), 0) + times
        if kind in (22, 23, 29, 30):
            return (self.bit(),)
        if kind in (32, 33, 34):
            return self.flag(kind), 0, self.timeout() if kind == 33 else 0
        if kind == 20:
            return self.mostly(range(4), 10), self.mostly((0, 1), 3), self.bit_mask(), self.bit_mask()
        if kind == 26:
            return (self.message(),) + self.target()
        if kind == 27:
            return 0, self.mostly((1, 2, 3, 6, 7, 16384, 32767), 65536), self.timeout()
        others = {2: lambda: (self.priority(),),
                  7: lambda: (0, 0, self.time()),
                  14: lambda: (0, self.mostly((0, 0, 1, 2), 5), self.mostly((1, 2, 3, 65535), 70000)),
                  21: lambda: (rng.randrange(4), 0, self.timeout()),
                  24: lambda: (0, rng.randrange(65536), rng.randrange(2**32), rng.randrange(2**32)),
                  25: lambda: (self.message(),)}
        return others.get(kind, tuple)()

    def spoil(self, r):
        r = list(r)
        i = self.rng.randrange(1, 6)
        r[i] = self.rng.choice(SPOILS) % WIDTHS[i]
        return tuple(r)

    # ---- choosing calls ----

    def weight(self, kind):
        m, w = self.model, FAMILIES[self.family].get(kind, 1)
        more, deep = len(m.threads) - self.crowd, any(m.levels)
        if kind == 2:
            return w * (4 if more < 0 else 0.3 if more > 4 else 1)
        if kind == 3:
            return w * (0.2 if more < 0 else 4 if more > 4 else 1)
        if kind == 14:
            return w * (6 if len(m.semaphores) < 3 else 1)
        if kind == 31:
            return w * (4 if len(m.flags) < 3 else 1)
        if 8 <= kind <= 13 and deep:
            return w * (0.4 if kind in (8, 11) else 3 if self.family == 'regions' else 15)
        return w

    def pick(self, wanted):
        """A call that the model answers with that number, or None if none came up."""
        kinds = list(GIVERS[wanted]) if wanted else list(range(1, 35))
        weights = None if wanted else [self.weight(k) for k in kinds]
        for _ in range(60):
            kind = self.rng.choices(kinds, weights)[0]
            r = record(kind, *self.fields(kind))
            if wanted in (1, 4, 5) and self.rng.random() < 0.7:
                r = self.spoil(r)
            if self.model.refusal(r) == wanted:
                return r
        return None

    # ---- episodes: short scripts towards rare numbers ----

    def leave_regions(self):
        for level, kind in ((0, 10), (1, 13)):
            if self.model.levels[level]:
                self.emit(record(kind))

    def fill(self, kind):
        """Creates until 7 comes, then makes room again."""
        while self.model.runner != NONE and self.emit(record(kind, *self.room_fields(kind))) == 0:
            pass
        m = self.model
        store = {2: m.threads, 14: m.semaphores, 24: m.messages, 31: m.flags}[kind]
        for i in self.rng.sample(sorted(store), len(store) // 2):
            if i != self.model.runner:
                self.emit(record({2: 3, 14: 15, 24: 25, 31: 32}[kind], i))

    @staticmethod
    def room_fields(kind):
        return {2: (30,), 14: (0, 0, 3), 24: (0, 1, 2, 3), 31: ()}[kind]

    def deepen(self, kind):
        """Pushes until 7 comes, then pops."""
        while self.model.runner != NONE and self.emit(record(kind)) == 0:
            pass
        if self.model.runner != NONE:
            self.emit(record(kind + 1))
            self.emit(record(kind + 2))

    def idle(self):
        """Puts all to sleep, asks for thread calls, then ticks until one wakes."""
        self.leave_regions()
        while self.model.runner != NONE:
            self.emit(record(7, c=self.rng.randrange(1, 5)))
        for _ in range(self.rng.randrange(1, 6)):
            self.emit(self.pick(2))
        for _ in range(5):
            self.emit(record(1))

    def interrupted(self):
        """Interrupts while a critical region is entered; they are refused."""
        if self.model.runner != NONE and self.model.levels[1] < 255:
            self.emit(record(11))
            for _ in range(self.rng.randrange(1, 4)):
                self.emit(self.pick(3) or record(1))
            self.emit(record(12))

    def blocked(self):
        """Calls that would block inside a region."""
        if self.model.runner != NONE and self.model.levels[0] < 255:
            self.emit(record(8))
            for _ in range(self.rng.randrange(1, 5)):
                self.emit(self.pick(6) or record(6))
            self.emit(record(9))

    def episode(self):
        """The next of the family's episodes; all come before one comes again."""
        if not self.due:
            self.due = [self.idle, self.blocked]
            if 3 in SUITABLE[self.family]:
                self.due.append(self.interrupted)
            kinds = {'mixed': (2, 14, 24, 31), 'semaphores': (14,), 'messages': (24,), 'priorities': (2,),
                     'flags': (31,)}
            self.due += [lambda k=k: self.fill(k) for k in kinds.get(self.family, ())]
            if 11 in SUITABLE[self.family]:
                self.due.append(lambda: self.deepen(self.rng.choice((8, 11))))
            self.rng.shuffle(self.due)
        self.due.pop()()

    # ---- the whole log ----

    def pend_flag(self):
        """The critical level is pushed, now and then something else comes, and the pend takes it off."""
        if self.model.runner == NONE or any(self.model.levels) or not self.model.flags:
            return self.emit(self.pick(0) or record(1))
        self.emit(record(11))
        if self.rng.random() < 0.2:
            self.emit(self.pick(0) or record(11))
        self.emit(record(33, *self.fields(33)))

    def one(self):
        if self.rng.random() < 0.005:
            self.episode()
        elif self.rng.random() < FLAG_PENDS.get(self.family, 0):
            self.pend_flag()
        elif self.rng.random() < 0.12:
            self.emit(self.pick(self.rng.choice(SUITABLE[self.family])) or record(1))
        else:
            self.emit(self.pick(0) or record(1))

    def write(self):
        for _ in range(3):  # before boot nobody runs
            self.emit(self.pick(2))
        for priority in (5, 5, 3):
            self.emit(record(2, priority))
        while len(self.log) < self.count:
            self.one()
        return self.log[:self.count]


def senseless(seed, count):
    """Random bytes; in every other record most of them are 0, so that some pass number 1."""
    rng = random.Random(f'senseless {seed}')
    data = bytearray(rng.randbytes(16 * count))
    for i in range(0, len(data), 32):
        data[i] %= 35
        for j in range(i + 1, i + 16):
            data[j] &= -(rng.random() < 0.1) & 255
    return bytes(data)


def replay(data):
    model = Model()
    for serial, r in enumerate(records(data), 1):
        print(serial, *model.call(r))
    print('uptime', model.uptime)


def main(args):
    out = sys.stdout.buffer
    if args == ['edges']:
        out.write(b''.join(map(pack, logs_edges.edges())))
    elif args == ['replay']:
        replay(sys.stdin.buffer.read())
    elif len(args) == 2 and args[0] == 'samples':
        logs_samples.write(args[1])
    elif len(args) == 3 and args[0] == 'senseless':
        out.write(senseless(args[1], int(args[2])))
    elif len(args) == 3 and args[0] in FAMILIES:
        out.write(b''.join(map(pack, Generator(args[0], args[1], int(args[2])).write())))
    else:
        sys.exit(f'{__doc__}\nFamilies: {" ".join(FAMILIES)} senseless')


if __name__ == '__main__':
    main(sys.argv[1:])
