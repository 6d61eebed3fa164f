"""The log `edges`: every kind with each field at 0, its limits, one past them and all ones.

Records run one after the other, so a set-up is repaired before each: the model says what is missing.
"""
import itertools

from logs_model import EVENT, FLAG, MESSAGE, NONE, READY, SEMAPHORE, USED, Model, record

ONES = 2**32 - 1
THREAD, SEM, MES = (0, 31, 32, 255), (0, 15, 16, 255), (0, 63, 64, 255)
FLAGS = (0, 1, 15, 16, 255)  # 0 has a waiter where anybody waits, 1 none
TIME, BIT, ANY = (0, 1, ONES), (0, 31, 32, 255), (0, 1, 2**31, ONES)
ID_ONLY = {3: THREAD, 5: THREAD, 15: SEM, 17: SEM, 19: SEM, 28: SEM, 22: BIT, 23: BIT, 25: MES, 29: BIT, 30: BIT,
           32: FLAGS, 34: FLAGS}
LIMITS = {kind: {'a': ids} for kind, ids in ID_ONLY.items()}
LIMITS.update({  # 256, 257 and 65,537 would be good if cut to fewer bits
    2: {'a': (0, 1, 30, 31, 255)},
    4: {'a': THREAD, 'b': (0, 1, 30, 31, 256, 257, 65535)},
    7: {'c': TIME},
    14: {'b': (0, 1, 2, 65535), 'c': (0, 1, 65535, 65536, 65537, ONES)},
    16: {'a': SEM, 'c': TIME, 'd': TIME},
    18: {'a': SEM, 'c': TIME},
    20: {'a': (0, 7, 8, 255), 'b': (0, 1, 2, 256, 65535), 'c': ANY, 'd': ANY},
    21: {'a': (0, 1, 7, 8, 255), 'c': TIME},
    24: {'b': (0, 65535), 'c': (0, ONES), 'd': (0, ONES)},
    26: {'a': MES, 'b': (0, 31, 32, 256, 65535), 'c': (0, 1, 15, 16, 257, 65537, ONES)},
    27: {'b': (0, 1, 32767, 32768, 65535), 'c': TIME},
    33: {'a': FLAGS, 'c': TIME},
})
ALL_ONES = {'a': 255, 'b': 65535, 'c': ONES, 'd': ONES, 'e': ONES}


def with_unused(kind, base):
    """Each field that has no meaning at one, at its top bit and at all ones."""
    for field, ones in ALL_ONES.items():
        if field not in USED.get(kind, ''):
            for value in (1, (ones + 1) // 2, ones):
                yield record(kind, **{**base, field: value})


def known(kind):
    limits = LIMITS.get(kind, {})
    for values in itertools.product(*limits.values()):
        yield record(kind, **dict(zip(limits, values)))
    yield from with_unused(kind, {field: values[1] for field, values in limits.items()})
    yield record(kind, **ALL_ONES)


def unknown():
    for kind in [0] + list(range(35, 256)):
        yield record(kind)
        yield from with_unused(kind, {})
        yield record(kind, **ALL_ONES)


class Edges:
    def __init__(self):
        self.model, self.log = Model(), []

    def emit(self, r):
        self.log.append(r)
        return self.model.call(r)[0]

    def leave_regions(self):
        for level, kind in ((0, 10), (1, 13)):
            if self.model.levels[level]:
                self.emit(record(kind))

    def nobody_runs(self):
        self.leave_regions()
        while self.model.runner != NONE:
            self.emit(record(3, self.model.runner))

    def create_up_to(self, threads, semaphores, messages, flags):
        m = self.model
        while len(m.threads) < threads:
            self.emit(record(2, 5))
        while len(m.semaphores) < semaphores:
            self.emit(record(14, c=2))
        while len(m.messages) < messages:
            self.emit(record(24))
        while len(m.flags) < flags:
            self.emit(record(31))

    def drop(self, keep):
        """Destroys threads that aren't ready, but for those in keep; a runner is left or made."""
        if self.model.runner == NONE:
            self.emit(record(2, 5))
        for i in sorted(self.model.threads):
            if self.model.threads[i].condition != READY and i not in keep:
                self.emit(record(3, i))

    def full(self):
        """All ids live: the limits 31, 15, 63 and 15 name something, creates give 7."""
        self.leave_regions()
        self.drop(())
        self.create_up_to(32, 16, 64, 16)

    def waiter(self, condition, obj, *calls):
        while not self.model.standing(condition, obj):
            for call in calls:
                self.emit(call)

    def waiting(self):
        """A waiter on semaphore 0, on event 1, on channel 1 and on flag 0, and a queued message."""
        m = self.model
        self.leave_regions()
        keep = [i for q in ((SEMAPHORE, 0), (EVENT, 1), (MESSAGE, 1), (FLAG, 0)) for i in m.standing(*q)[:1]]
        self.drop(keep)
        self.create_up_to(8, 2, 2, 2)
        if m.semaphores[0][0] > 2:
            self.emit(record(15, 0))
            self.emit(record(14, c=2))
        self.waiter(SEMAPHORE, 0, record(18, 0))
        if m.is_true(1) or not m.standing(EVENT, 1):
            self.emit(record(20, 1, 1, 0, 0))
        self.waiter(EVENT, 1, record(21, 1))
        self.waiter(MESSAGE, 1, record(27, b=1))
        self.waiter(FLAG, 0, record(11), record(33, 0))
        if len(m.messages) > 48:
            self.emit(record(3, max(m.messages.values())[0]))
        if not any(channel for _, channel, _ in m.messages.values()):
            self.log.append(record(24))
            self.log.append(record(26, m.call(record(24))[1], m.runner, 2))
            m.call(self.log[-1])

    def run(self, set_up, pushes, calls):
        for r in calls:
            set_up()
            for push in pushes:
                self.emit(record(push))
            self.emit(r)
            self.emit(r)  # a second time meets what the first one left

    def deep(self):
        """Both levels at 255, where pushes give 7 and interrupts 3."""
        self.waiting()
        for push in (8, 11):
            while self.emit(record(push)) == 0:
                pass
        for kind in (1, 28, 6, 7, 18, 33, 12, 11, 11, 9, 8, 8, 13, 1, 8, 10, 10, 13, 1):
            self.emit(record(kind, c=kind == 7))


def edges():
    log = Edges()
    every = [r for kind in range(1, 35) for r in known(kind)]
    flags = [r for r in every if r[0] > 30]
    log.run(log.nobody_runs, (), every)
    for pushes in ((), (8,), (11,), (8, 11)):
        log.run(log.waiting, pushes, every)
    log.run(log.waiting, (11, 11), flags)
    log.run(log.waiting, (), unknown())
    log.deep()
    for pushes in ((), (8,)):
        log.run(log.full, pushes, every)
    log.run(log.full, (11,), flags)  # where flag 15 too can be pended on
    return log.log
