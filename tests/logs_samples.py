"""Document 01's sample runs, some of its traps, and runs of document 02's flags, with the answers worked out by hand.

Each line is one record and the number, value and runner that the documents ask for. Left out:
"Uptime 4,294,967,295, then a tick", whose start state no log of this length reaches, and trap 3,
which is about undo.
"""
import os

from logs_model import pack, record as r

PLAIN = '0 255 0'  # accepted, nothing comes back, thread 0 runs
SAMPLES = {
    'printed': ([  # the example of "Printed replay"
        (r(2, 5), '0 0 0'),
        (r(2, 3), '0 1 1'),
        (r(7, c=1), '0 255 0'),
        (r(1), '0 255 1')], 1),
    'fresh': ([
        (r(6), '2 255 255'),
        (r(1), '0 255 255')], 1),
    'priorities': ([
        (r(2, 30), '0 0 0'),
        (r(2, 0), '5 255 0'),
        (r(2, 31), '5 255 0')], 0),
    'sleep_and_yield': ([
        (r(2, 5), '0 0 0'),
        (r(2, 3), '0 1 1'),
        (r(2, 5), '0 2 1'),
        (r(7, c=2), '0 255 0'),
        (r(6), '0 255 2'),
        (r(1), '0 255 2'),
        (r(1), '0 255 1')], 2),
    'timed_out': ([
        (r(2, 5), '0 0 0'),
        (r(14, c=2), '0 0 0'),
        (r(18, 0, c=1), '0 255 255'),
        (r(1), PLAIN),
        (r(19, 0), PLAIN),          # no waiter left: the count is 1
        (r(8), PLAIN),
        (r(18, 0), PLAIN),          # takes that one
        (r(18, 0), '6 255 0')], 1),
    'at_maximum': ([
        (r(2, 5), '0 0 0'),
        (r(14, b=1, c=1), '0 0 0'),
        (r(19, 0), PLAIN),
        (r(8), PLAIN),
        (r(18, 0), PLAIN),
        (r(18, 0), '6 255 0')], 0),  # so the count had stayed 1
    'pend_in_region': ([
        (r(2, 5), '0 0 0'),
        (r(14, c=1), '0 0 0'),
        (r(14, b=1, c=1), '0 1 0'),
        (r(8), PLAIN),
        (r(18, 0), '6 255 0'),
        (r(18, 1), PLAIN)], 0),
    'tick_in_region': ([
        (r(2, 5), '0 0 0'),
        (r(11), PLAIN),
        (r(1), '3 255 0'),
        (r(12), PLAIN),
        (r(8), PLAIN),
        (r(1), PLAIN)], 1),
    'channels': ([
        (r(2, 5), '0 0 0'),
        (r(2, 6), '0 1 0'),
        (r(24), '0 0 0'),
        (r(24), '0 1 0'),
        (r(26, 0, 1, 2), PLAIN),     # channel 2 first
        (r(26, 1, 1, 1), PLAIN),
        (r(7, c=5), '0 255 1'),
        (r(27, b=3), '0 1 1'),       # yet channel 1's comes first
        (r(27, b=3), '0 0 1')], 0),
    'thread_33': (
        [(r(2, 5), f'0 {i} 0') for i in range(32)] + [
            (r(2, 5), '7 255 0'),
            (r(3, 17), PLAIN),
            (r(2, 9), '0 17 0')], 0),
    'trap_1': ([  # a posted timed waiter leaves the time queue
        (r(2, 3), '0 0 0'),
        (r(2, 5), '0 1 0'),
        (r(14, c=1), '0 0 0'),
        (r(18, 0, c=2), '0 255 1'),
        (r(19, 0), PLAIN),
        (r(7, c=5), '0 255 1'),
        (r(1), '0 255 1'),
        (r(1), '0 255 1'),           # the old timeout would end here
        (r(1), '0 255 1'),
        (r(1), '0 255 1'),
        (r(1), PLAIN)], 5),
    'trap_2': ([  # a preempted thread keeps its place
        (r(2, 5), '0 0 0'),
        (r(2, 5), '0 1 0'),
        (r(2, 3), '0 2 2'),
        (r(7, c=1), PLAIN),
        (r(1), '0 255 2'),
        (r(3, 2), PLAIN)], 1),
    'trap_4': ([  # a post wakes or counts, never both
        (r(2, 3), '0 0 0'),
        (r(2, 5), '0 1 0'),
        (r(14, c=2), '0 0 0'),
        (r(18, 0), '0 255 1'),
        (r(19, 0), PLAIN),
        (r(8), PLAIN),
        (r(18, 0), '6 255 0')], 0),
    'same_priority': ([  # goes last even so, in a region too
        (r(2, 5), '0 0 0'),
        (r(2, 5), '0 1 0'),
        (r(4, 0, 5), '0 255 1'),
        (r(5, 1), PLAIN),
        (r(8), PLAIN),
        (r(4, 0, 5), PLAIN),
        (r(9), '0 255 1')], 0),
    'timeout_before_post': ([  # of one tick, on one semaphore
        (r(2, 5), '0 0 0'),
        (r(14, c=1), '0 0 0'),
        (r(16, 0, c=1, d=3), PLAIN),
        (r(18, 0, c=1), '0 255 255'),
        (r(1), PLAIN),
        (r(8), PLAIN),
        (r(18, 0), PLAIN),
        (r(18, 0), '6 255 0')], 1),
    'owners': ([  # received at the post; then 9 before 8
        (r(2, 3), '0 0 0'),
        (r(2, 5), '0 1 0'),
        (r(27, b=1), '0 255 1'),
        (r(24), '0 0 1'),
        (r(26, 0, 0, 1), PLAIN),
        (r(25, 0), PLAIN),
        (r(7, c=1), '0 255 1'),
        (r(24), '0 0 1'),
        (r(26, 0, 0, 2), '0 255 1'),
        (r(25, 0), '9 255 1'),
        (r(1), PLAIN),
        (r(25, 0), '9 255 0'),
        (r(27, b=2), '0 0 0'),
        (r(7, c=1), '0 255 1'),
        (r(25, 0), '8 255 1')], 1),
    'event': ([  # mode all, bits 0 and 1: both waiters wake, and it stays TRUE
        (r(2, 3), '0 0 0'),
        (r(2, 4), '0 1 0'),
        (r(2, 5), '0 2 0'),
        (r(20, 0, 0, 3, 3), PLAIN),
        (r(21, 0), '0 255 1'),
        (r(21, 0, c=9), '0 255 2'),
        (r(22, 0), '0 255 2'),
        (r(22, 1), PLAIN),
        (r(21, 0), PLAIN),
        (r(23, 1), PLAIN),
        (r(8), PLAIN),
        (r(21, 0), '6 255 0')], 0),
    'flag_levels': ([  # a pend passes with critical level 1 and unscheduled level 0, and then takes it off
        (r(31), '2 255 255'),        # not a call of boot
        (r(2, 5), '0 0 0'),
        (r(31), '0 0 0'),
        (r(33, 0), '6 255 0'),       # (unscheduled, critical) = (0, 0)
        (r(33, 1), '4 255 0'),       # before 6
        (r(11), PLAIN),
        (r(11), PLAIN),
        (r(33, 0), '6 255 0'),       # (0, 2)
        (r(12), PLAIN),
        (r(8), PLAIN),
        (r(33, 0), '6 255 0'),       # (1, 1)
        (r(12), PLAIN),
        (r(33, 0), '6 255 0'),       # (1, 0)
        (r(9), PLAIN),
        (r(11), PLAIN),
        (r(33, 0, c=1), '0 255 255'),  # (0, 1)
        (r(1), PLAIN),               # not refused with 3: the level is off
        (r(12), '11 255 0')], 1),
    'flag_waiters': ([  # all wake in queue order, the timed one too: by priority, then by arrival
        (r(2, 5), '0 0 0'),
        (r(2, 5), '0 1 0'),
        (r(2, 9), '0 2 0'),
        (r(31), '0 0 0'),
        (r(6), '0 255 1'),
        (r(11), '0 255 1'),
        (r(33, 0), '0 255 0'),       # 1 waits
        (r(2, 3), '0 3 3'),
        (r(11), '0 255 3'),
        (r(33, 0, c=2), '0 255 0'),  # 3 before 1, for two ticks
        (r(11), PLAIN),
        (r(33, 0), '0 255 2'),       # 0 behind 1
        (r(1), '0 255 2'),
        (r(34, 0), '0 255 3'),
        (r(1), '0 255 3'),           # the old timeout would end here
        (r(7, c=9), '0 255 1'),
        (r(3, 1), PLAIN),
        (r(34, 0), PLAIN)], 2),      # nobody waits
    'flag_time_out': ([  # the first waiter times out, the other waits on
        (r(2, 5), '0 0 0'),
        (r(2, 4), '0 1 1'),
        (r(2, 6), '0 2 1'),
        (r(31), '0 0 1'),
        (r(11), '0 255 1'),
        (r(33, 0, c=2), '0 255 0'),
        (r(11), PLAIN),
        (r(33, 0), '0 255 2'),
        (r(1), '0 255 2'),
        (r(1), '0 255 1'),
        (r(7, c=5), '0 255 2'),
        (r(32, 0), '10 255 2'),
        (r(34, 0), PLAIN),           # wakes 0, and not the sleeper
        (r(32, 0), PLAIN)], 2),
    'flag_with_waiter': ([
        (r(2, 3), '0 0 0'),
        (r(2, 5), '0 1 0'),
        (r(31), '0 0 0'),
        (r(31), '0 1 0'),
        (r(11), PLAIN),
        (r(33, 1), '0 255 1'),
        (r(32, 1), '10 255 1'),
        (r(32, 0), '0 255 1'),
        (r(34, 0), '4 255 1'),
        (r(31), '0 0 1'),            # its id again
        (r(34, 1), PLAIN),
        (r(32, 1), PLAIN),
        (r(11), PLAIN),
        (r(33, 1), '4 255 0')], 0),
    'flag_17': (
        [(r(2, 5), '0 0 0')] + [(r(31), f'0 {i} 0') for i in range(16)] + [
            (r(31), '7 255 0'),
            (r(34, 16), '4 255 0'),
            (r(32, 9), PLAIN),
            (r(31), '0 9 0')], 0),
    'flag_post_in_region': ([  # the poster runs on
        (r(2, 3), '0 0 0'),
        (r(2, 5), '0 1 0'),
        (r(31), '0 0 0'),
        (r(11), PLAIN),
        (r(33, 0), '0 255 1'),
        (r(8), '0 255 1'),
        (r(34, 0), '0 255 1'),
        (r(9), PLAIN)], 0),
    'flag_same_priority': ([  # a waiter too goes behind its equals
        (r(2, 5), '0 0 0'),
        (r(2, 5), '0 1 0'),
        (r(2, 9), '0 2 0'),
        (r(31), '0 0 0'),
        (r(11), PLAIN),
        (r(33, 0), '0 255 1'),
        (r(11), '0 255 1'),
        (r(33, 0), '0 255 2'),
        (r(4, 0, 5), '0 255 2'),
        (r(34, 0), '0 255 1'),
        (r(6), PLAIN)], 0),
}


def write(folder):
    os.makedirs(folder, exist_ok=True)
    for name, (lines, uptime) in SAMPLES.items():
        with open(os.path.join(folder, name), 'wb') as f:
            f.write(b''.join(pack(rec) for rec, _ in lines))
        with open(os.path.join(folder, name + '.expected'), 'w') as f:
            for serial, (_, answer) in enumerate(lines, 1):
                f.write(f'{serial} {answer}\n')
            f.write(f'uptime {uptime}\n')
