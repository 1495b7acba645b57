#!/usr/bin/env python3
"""Writes a small layout as a GDSII stream that vk_gdsii_read takes: host/sample.gds, which host/run reads.

    host/stream.py [FILE]

A stream is records, one after the other. A record opens with its length in bytes, itself and the type included (two
bytes), then its type (two bytes), then its data; every number has its high byte first.
"""
import pathlib
import struct
import sys

# Steps in a micrometre.
STEPS = 1024


def record(kind, data=b''):
    return struct.pack('>HH', len(data) + 4, kind) + data


def text(string):
    """ASCII, filled up with a zero byte to an even length."""
    return string.encode('ascii') + b'\0' * (len(string) % 2)


def numbers(*list_of_two_bytes):
    return struct.pack(f'>{len(list_of_two_bytes)}h', *list_of_two_bytes)


def steps(vertices):
    """x and y of each vertex in steps, signed, of four bytes each."""
    return b''.join(struct.pack('>ii', round(x * STEPS), round(y * STEPS)) for x, y in vertices)


def boundary(layer, vertices):
    return (record(0x0800)                                # BOUNDARY: 00 04 08 00
            + record(0x0D02, numbers(layer))              # LAYER:    00 06 0D 02, then the layer; not read
            + record(0x0E02, numbers(0))                  # DATATYPE: 00 06 0E 02, then 00 00; not read
            + record(0x1003, steps(vertices))             # XY:       length, 10 03, then 8 bytes a vertex
            + record(0x1100))                             # ENDEL:    00 04 11 00


# The year, month, day, hour, minute and second of two times, of the last change and the last reading.
TIMES = numbers(*(2 * [2000, 1, 1, 0, 0, 0]))

# A real has a sign bit, 7 bits of an exponent of 16, 64 more than it is, and 56 bits of a fraction.
# 3E: 16 to the power of -2; 40 00 ..: a quarter. A quarter of 1/256 is 1/1,024: a step in user units, which are
# micrometres. vk_gdsii_read takes these eight bytes and no others.
STEP_IN_UNITS = bytes([0x3E, 0x40, 0, 0, 0, 0, 0, 0])
# A step in metres, 1/1,024 of 1e-6, as near as a real comes to it. Not read.
STEP_IN_METRES = bytes([0x39, 0x43, 0x1B, 0xDE, 0x82, 0xD7, 0xB6, 0x35])

# Layout programs repeat the first vertex at the end, and draw in either direction.
OUTLINES = [
    # a waveguide, counterclockwise and closed
    (1, [(1, 1), (24, 1), (24, 1.5), (1, 1.5), (1, 1)]),
    # a taper, clockwise and closed
    (1, [(1, 8.75), (1, 9.25), (6, 10.5), (6, 7.5), (1, 8.75)]),
    # a frame with a hole: one outline that runs along its cut twice, clockwise and closed
    (1, [(9, 2), (9, 7), (14, 7), (14, 2), (9, 2), (10, 3), (13, 3), (13, 6), (10, 6), (10, 3), (9, 2)]),
    # a heater, clockwise and not closed
    (2, [(16, 3), (16, 9), (22, 9), (22, 8), (17, 8), (17, 4), (22, 4), (22, 3)]),
    # a mark, counterclockwise and not closed
    (3, [(19, 5.5), (21.5, 5.5), (20.25, 6.75)]),
]

STREAM = (record(0x0002, numbers(600))                    # HEADER:  00 06 00 02, then the version, 02 58; not read
          + record(0x0102, TIMES)                         # BGNLIB:  00 1C 01 02, then the times; not read
          + record(0x0206, text('SAMPLE'))                # LIBNAME: 00 0A 02 06, then the name; not read
          + record(0x0305, STEP_IN_UNITS + STEP_IN_METRES)  # UNITS: 00 14 03 05, then two reals of 8 bytes
          + record(0x0502, TIMES)                         # BGNSTR:  00 1C 05 02, then the times; not read
          + record(0x0606, text('TOP'))                   # STRNAME: 00 08 06 06, then the name; not read
          + b''.join(boundary(*outline) for outline in OUTLINES)
          + record(0x0700)                                # ENDSTR:  00 04 07 00
          + record(0x0400))                               # ENDLIB:  00 04 04 00

if __name__ == '__main__':
    to = sys.argv[1] if len(sys.argv) > 1 else pathlib.Path(__file__).parent / 'sample.gds'
    pathlib.Path(to).write_bytes(STREAM)
