#!/usr/bin/env python3
"""images_lines.py RECORDS: the lines of a stream of `second images`, of the log in the file RECORDS.

Only a test of that mode: each step must hold one image, whose six sections fill it, and the last image must be the fresh state's.
"""
import os
import sys

FRESH = bytes.fromhex('01 0700 00000000 00 00 ff 0000 0000 0400 00000000 0200 0000 0000')


def number(data, at):
    return int.from_bytes(data[at:at + 2], 'little')


def is_framed(image):
    at = 1
    for _ in range(6):
        at += 2 + number(image, at)
    return image[:1] == b'\1' and at == len(image) <= 1922


def main(records, data):
    at, serial, image = 0, 0, FRESH
    while at < len(data):
        said, end = data[at:at + 3], at + 5 + number(data, at + 3)
        image, at, serial = data[at + 5:end], end, serial + 1
        if at > len(data) or not is_framed(image):
            sys.exit('no image in step %d' % serial)
        if serial <= records:
            print(serial, *said)
        elif (said[0], said[1]) == (0, 255):
            print('back', 0, said[2])
        else:
            sys.exit('step %d is no undo' % serial)
    print('fresh' if image == FRESH else 'not fresh')


main(os.path.getsize(sys.argv[1]) // 16, sys.stdin.buffer.read())
