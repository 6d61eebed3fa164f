#!/usr/bin/env python3
"""fake_both.py NOTES: what app_both_ways would print for the records on standard input, of the log in the file NOTES.

Only a test of `second both` and `second notes`. The answers come from the model, the lengths from the notes; each must be the
call's own, with sections that add up to the whole length in its last two bytes.
"""
import os
import sys

sys.dont_write_bytecode = True  # leaves the tree as it is
sys.path.insert(0, os.path.join(os.path.dirname(os.path.abspath(__file__)), '..'))
from logs_model import NONE, Model, pack, records  # noqa: E402


def number(log, at):
    return int.from_bytes(log[at:at + 2], 'little')


def note_end(log, at):
    """Where the note that begins at `at` ends; None where it isn't one."""
    end = at + 16
    for _ in range(6):
        end += 2 + number(log, end)
    return end + 2 if end + 2 <= len(log) and number(log, end) == end + 2 - at else None


def main(log):
    model, before, used = Model(), [], 0
    for serial, r in enumerate(records(sys.stdin.buffer.read()), 1):
        runner = model.runner
        if model.refusal(r) == 0 and log[used:used + 16] != pack(r):
            print(serial, 13, NONE, runner, 0)  # `second both` knows whether its note fitted
            continue
        answer = model.call(r)
        start = used
        if answer[0] == 0:
            before.append((runner, start))
            used = note_end(log, start) or sys.exit('no note at %d, record %d' % (start, serial))
        print(serial, *answer, used - start)
    if used != len(log):
        sys.exit('bytes behind the last note')
    for runner, start in reversed(before):
        print('back', 0, runner, start)
    print('uptime 0\nfresh')


main(open(sys.argv[1], 'rb').read())
