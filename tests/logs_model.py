"""A light model of the kernel of documents 01 and 02 that drives logs.py.

It has stamps where a kernel has queues (smallest priority and stamp first), so it shares no idea
with the C replay; it knows answers only: no wake reasons, replies, senders, sizes or addresses.
"""
import struct

READY, ASLEEP, SEMAPHORE, EVENT, MESSAGE, FLAG = range(6)
NONE = 255
INTERRUPTS = (1, 28, 29, 30)
BOOT = (2, 14, 20)
USED = {1: '', 2: 'a', 3: 'a', 4: 'ab', 5: 'a', 6: '', 7: 'c', 8: '', 9: '', 10: '', 11: '', 12: '',
        13: '', 14: 'bc', 15: 'a', 16: 'acd', 17: 'a', 18: 'ac', 19: 'a', 20: 'abcd', 21: 'ac',
        22: 'a', 23: 'a', 24: 'bcd', 25: 'a', 26: 'abc', 27: 'bc', 28: 'a', 29: 'a', 30: 'a',
        31: '', 32: 'a', 33: 'ac', 34: 'a'}


def record(kind, a=0, b=0, c=0, d=0, e=0):
    return (kind, a, b, c, d, e)


def pack(r):
    return struct.pack('<BBHIII', *r)


def records(data):
    return [struct.unpack('<BBHIII', data[i:i + 16]) for i in range(0, len(data) - 15, 16)]


class Thread:
    def __init__(self, priority, stamp):
        self.priority = self.first = priority
        self.condition, self.object, self.ticks = READY, 0, 0
        self.stamp, self.entry = stamp, 0


class Model:
    def __init__(self):
        self.threads, self.semaphores, self.messages = {}, {}, {}
        self.events = [(1, 0, 0)] * 8
        self.flags = set()
        self.bits = self.uptime = self.clock = 0
        self.levels = [0, 0]
        self.runner = NONE

    def now(self):
        self.clock += 1
        return self.clock

    def standing(self, condition, obj=0):
        """Ids of the threads in one condition, in the order of their list or queue."""
        found = [(t.priority, t.stamp, i) for i, t in self.threads.items()
                 if t.condition == condition and t.object == obj]
        return [i for _, _, i in sorted(found)]

    def is_true(self, event):
        mode, mask, values = self.events[event]
        equal = ~(self.bits ^ values) & mask
        return equal == mask if mode == 0 else equal != 0

    def queued(self, mask):
        """The runner's messages on masked channels, first to be taken first."""
        found = [(ch, stamp, m) for m, (owner, ch, stamp) in self.messages.items()
                 if owner == self.runner and ch and mask >> (ch - 1) & 1]
        return [m for _, _, m in sorted(found)]

    # ---- refusals ----

    def outside(self, r):
        kind, a, b, c, d, _ = r
        return {2: not 1 <= a <= 30, 4: not 1 <= b <= 30, 7: c == 0,
                14: not 1 <= c <= 65535 or b > c, 16: c == 0 or d == 0, 20: b > 1,
                26: not 1 <= c <= 15, 27: not 1 <= b <= 32767}.get(kind, False)

    def unknown_id(self, r):
        kind, a, b = r[:3]
        if kind in (3, 4, 5):
            return a not in self.threads
        if kind in (15, 16, 17, 18, 19, 28):
            return a not in self.semaphores
        if kind in (20, 21):
            return a > 7
        if kind in (22, 23, 29, 30):
            return a > 31
        if kind in (32, 33, 34):
            return a not in self.flags
        return kind in (25, 26) and a not in self.messages or kind == 26 and b not in self.threads

    def stops(self, r):
        """Whether a level forbids the call: it blocks, sleeps, yields or destroys the caller."""
        kind, a, b = r[:3]
        if kind == 33:  # asks for one level, the critical one, and takes it off
            return self.levels != [0, 1]
        return any(self.levels) and (
                kind in (6, 7) or kind == 3 and a == self.runner
                or kind == 18 and self.semaphores[a][0] == 0
                or kind == 21 and not self.is_true(a) or kind == 27 and not self.queued(b))

    def refusal(self, r):
        kind, a = r[:2]
        if kind not in USED or any(v for f, v in zip('abcde', r[1:]) if f not in USED[kind]):
            return 1
        if kind in INTERRUPTS and self.levels[1]:
            return 3
        if kind not in INTERRUPTS + BOOT and self.runner == NONE:
            return 2
        if self.outside(r):
            return 5
        if self.unknown_id(r):
            return 4
        if kind in (25, 26) and self.messages[a][1]:
            return 9
        if kind in (25, 26) and self.messages[a][0] != self.runner:
            return 8
        if kind == 15 and self.standing(SEMAPHORE, a) or kind == 32 and self.standing(FLAG, a):
            return 10
        if kind == 17 and not self.semaphores[a][3]:
            return 12
        if kind in (9, 10) and not self.levels[0] or kind in (12, 13) and not self.levels[1]:
            return 11
        if self.stops(r):
            return 6
        full = {2: len(self.threads) == 32, 14: len(self.semaphores) == 16,
                24: len(self.messages) == 64, 31: len(self.flags) == 16,
                8: self.levels[0] == 255, 11: self.levels[1] == 255}
        return 7 if full.get(kind) else 0

    # ---- what accepted calls do ----

    def wake(self, i):
        t = self.threads[i]
        t.condition, t.object, t.ticks, t.stamp = READY, 0, 0, self.now()

    def block(self, condition, obj, ticks):
        t = self.threads[self.runner]
        t.condition, t.object, t.ticks = condition, obj, ticks
        t.stamp = t.entry = self.now()
        return NONE

    def post(self, s):
        waiting = self.standing(SEMAPHORE, s)
        if waiting:
            self.wake(waiting[0])
        else:
            self.semaphores[s][0] = min(self.semaphores[s][0] + 1, self.semaphores[s][1])

    def tick(self):
        self.uptime = (self.uptime + 1) % 2**32
        timed = sorted((t.entry, i) for i, t in self.threads.items() if t.ticks)
        for _, i in timed:
            self.threads[i].ticks -= 1
            if self.threads[i].ticks == 0:
                self.wake(i)
        for s in sorted(self.semaphores):
            sem = self.semaphores[s]
            if sem[3]:
                sem[2] -= 1
                if sem[2] == 0:
                    self.post(s)
                    sem[2] = sem[3]

    def work_out(self):
        for e in range(8):
            if self.is_true(e):
                for i in self.standing(EVENT, e):
                    self.wake(i)

    def create(self, kind, r):
        store = {2: self.threads, 14: self.semaphores, 24: self.messages}[kind]
        new = min(set(range(len(store) + 1)) - set(store))
        store[new] = (Thread(r[1], self.now()) if kind == 2
                      else [r[2], r[3], 0, 0] if kind == 14 else (self.runner, 0, 0))
        return new

    def destroy_thread(self, i):
        del self.threads[i]
        for m in [m for m, rest in self.messages.items() if rest[0] == i]:
            del self.messages[m]

    def post_message(self, m, to, channel):
        t = self.threads[to]
        if t.condition == MESSAGE and t.object >> (channel - 1) & 1:
            self.messages[m] = (to, 0, 0)
            self.wake(to)
        else:
            self.messages[m] = (to, channel, self.now())

    def pend(self, kind, a, b, c):
        if kind == 18:
            if not self.semaphores[a][0]:
                return self.block(SEMAPHORE, a, c)
            self.semaphores[a][0] -= 1
        elif kind == 21:
            if not self.is_true(a):
                return self.block(EVENT, a, c)
        else:
            found = self.queued(b)
            if not found:
                return self.block(MESSAGE, b, c)
            self.messages[found[0]] = (self.runner, 0, 0)
            return found[0]
        return NONE

    def change_flag(self, kind, a, c):
        if kind == 31:
            new = min(set(range(16)) - self.flags)
            self.flags.add(new)
            return new
        if kind == 32:
            self.flags.remove(a)
        elif kind == 33:
            self.levels[1] -= 1
            self.block(FLAG, a, c)
        else:
            for i in self.standing(FLAG, a):
                self.wake(i)
        return NONE

    def carry_out(self, r):
        kind, a, b, c, d, _ = r
        if kind == 1:
            self.tick()
        elif kind in (2, 14, 24):
            return self.create(kind, r)
        elif kind == 3:
            self.destroy_thread(a)
        elif kind in (4, 5, 6):
            t = self.threads[self.runner if kind == 6 else a]
            t.priority = {4: b, 5: t.first, 6: t.priority}[kind]
            t.stamp = self.now()
        elif kind == 7:
            self.block(ASLEEP, 0, c)
        elif kind <= 13:
            self.levels[kind > 10] += 1 if kind in (8, 11) else -1
            if kind in (10, 13):
                self.levels[kind > 10] = 0
        elif kind == 15:
            del self.semaphores[a]
        elif kind in (16, 17):
            self.semaphores[a][2:] = [c, d]
        elif kind in (18, 21, 27):
            return self.pend(kind, a, b, c)
        elif kind in (19, 28):
            self.post(a)
        elif kind in (20, 22, 23, 29, 30):
            if kind == 20:
                self.events[a] = (b, c, d)
            else:
                self.bits = self.bits | 1 << a if kind in (22, 29) else self.bits & ~(1 << a)
            self.work_out()
        elif kind == 25:
            del self.messages[a]
        elif kind == 26:
            self.post_message(a, b, c)
        elif kind > 30:
            return self.change_flag(kind, a, c)
        return NONE

    def call(self, r):
        """The answer: number, value, runner."""
        number = self.refusal(r)
        if number:
            return number, NONE, self.runner
        value = self.carry_out(r)
        if not any(self.levels):
            self.runner = next(iter(self.standing(READY)), NONE)
        return 0, value, self.runner
