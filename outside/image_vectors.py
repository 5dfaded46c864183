#!/usr/bin/env python3
"""Writes the image vectors of crates/image_vectors into a folder, from documents 01 and 02 alone: `stdin`, a good image and then changes
to it, and `stdout`, the number that restore gives each.

    python3 outside/image_vectors.py FOLDER

A change is 14 bytes: the image's length (2), an offset (2), a width (2), a number (8), all little-endian; a
width from 128 on keeps the change for the next one and asks for no number yet."""
import os
import struct
import sys

TOP = 524288
FOUR = 4294967295
LAST = 2 ** 63 - 1
WIDEST = 2 ** 64 - 1


def number(b):
    return int.from_bytes(b, 'little')


def table():
    return b''.join(struct.pack('<IHH', *entry) for entry in ((1, 32, 36), (2, 68, 32), (3, 100, 608), (4, 708, 80)))


def start_refused(b):
    m, f, u, t, h, i, d, w, g = (number(b[4 * j:4 * j + 4]) for j in range(9))
    return not (8 <= m <= 256 and f in (50, 60) and 16 <= u <= TOP and 50 <= t <= 600 and h < t
                and max(i, d, w, g) <= 20000 and i >= 1 and i + g <= d and d + 2 * g < w)


def refusal(b):
    """01, Restore, with the marks of 02, N1, and the widths of N7."""
    if len(b) != 788:
        return 8
    if b[:32] != table():
        return 9
    if start_refused(b[32:68]):
        return 10
    m, n = number(b[32:36]), 100 if number(b[36:40]) == 50 else 120
    count, total, last, whole = number(b[68:72]), number(b[72:80]), number(b[80:88]), number(b[88:92])
    half_mark, last_mark = number(b[92:96]), number(b[96:100])
    v = number(b[100:108])
    used = min(v, n)
    places = [number(b[108 + 4 * j:112 + 4 * j]) for j in range(120)]
    place_marks = b[588:708]
    phase, k, second, third, fourth, *rest = struct.unpack('<IQIIQQIQIQI4I', b[708:])
    events, marks, change_mark = rest[:6], rest[6:9], rest[9]
    good = v <= LAST and count < m and total <= count * 2 ** 30 and last <= m * 2 ** 30 and whole <= 1 and (whole == 1 or last == v == 0)
    good = good and half_mark <= min(count, 1) and last_mark <= whole
    good = good and all(x <= TOP for x in places) and not any(places[used:])
    good = good and all(x <= 1 for x in place_marks) and not any(place_marks[used:])
    good = good and phase <= 3 and (phase == 0) == (v < n)
    if phase == 3:
        good = good and n < k <= v and second <= n * TOP and third <= n * TOP and (third == 0 or v >= k + n) and (fourth == 0 or k <= fourth <= v)
        good = good and change_mark <= (1 if v >= k + n else 0)
    else:
        good = good and k == second == third == fourth == change_mark == 0
    for start, magnitude, mark in zip(events[::2], events[1::2], marks):
        good = good and start <= v and magnitude <= TOP and (start > 0 or magnitude == 0) and mark <= min(start, 1)
    return 0 if good else 11


def good_image():
    """In a change since value 150, with a dip since 151, 300 values in: the change is old enough to have a greatest difference and a mark.
    Some marks are set."""
    settings = struct.pack('<9I', 8, 50, 1600, 300, 150, 500, 9000, 11000, 200)
    gatherer = struct.pack('<IQQIII', 3, 19200, 51200, 1, 0, 1)
    values = [1600] * 98 + [1448, 1280] + [0] * 20
    marks = [0] * 98 + [1, 1] + [0] * 20
    events = struct.pack('<IQIIQQIQIQI4I', 3, 150, 160000, 32000, 151, 151, 1280, 0, 0, 0, 0, 1, 0, 0, 0)
    return table() + settings + gatherer + struct.pack('<Q120I120B', 300, *values, *marks) + events


GOOD = good_image()
MARKS = (0, 1, 2, 3, 255, 256, 257, 2 ** 31, FOUR)
# each: the length, and (offset, width, number) changes
vectors = [(788, [])]
vectors += [(length, []) for length in (0, 1, 620, 764, 787, 789)]
vectors += [(788, [(j, 1, (GOOD[j] + 1) % 256)]) for j in range(788)]
rules = [
    # settings, each limit from both sides
    (32, 4, (7, 8, 256, 257)), (36, 4, (49, 50, 51, 60, 61)), (40, 4, (15, 16, TOP, TOP + 1)), (44, 4, (150, 151, 600, 601)), (48, 4, (299, 300)),
    (52, 4, (0, 1, 8800, 8801)), (56, 4, (699, 700, 10599, 10600)), (60, 4, (9400, 9401, 20000, 20001)), (64, 4, (999, 1000, 20000, 20001)),
    # the gatherer
    (68, 4, (7, 8)), (72, 8, (3 * 2 ** 30, 3 * 2 ** 30 + 1)), (80, 8, (8 * 2 ** 30, 8 * 2 ** 30 + 1)), (88, 4, (0, 1, 2)), (92, 4, MARKS), (96, 4, MARKS),
    # V, the values and their marks
    (100, 8, (99, 100, 149, 150, 151, 249, 250, FOUR, FOUR + 1, FOUR + 100, LAST, LAST + 1, WIDEST)), (108, 4, (TOP, TOP + 1)), (504, 4, (TOP, TOP + 1)),
    (508, 4, (0, 1)), (584, 4, (0, 1)), (588, 1, (0, 1, 2, 3, 128, 255)), (687, 1, (0, 1, 2, 3, 128, 255)), (688, 1, (0, 1, 255)), (707, 1, (0, 1, 255)),
    # the phase and the change
    (708, 4, (0, 1, 2, 3, 4)), (712, 8, (100, 101, 200, 201, 300, 301, FOUR + 151, WIDEST)), (720, 4, (100 * TOP, 100 * TOP + 1)),
    (724, 4, (0, 100 * TOP, 100 * TOP + 1)), (728, 8, (0, 149, 150, 300, 301, FOUR + 1, FOUR + 151, WIDEST)), (784, 4, MARKS),
    # the events
    (736, 8, (0, 300, 301, FOUR + 1, FOUR + 2, WIDEST)), (744, 4, (0, TOP, TOP + 1)), (748, 8, (1, 301)), (756, 4, (1,)), (760, 8, (300, 301)), (768, 4, (1,)),
    (772, 4, MARKS), (776, 4, MARKS), (780, 4, MARKS),
]
vectors += [(788, [(offset, width, x)]) for offset, width, xs in rules for x in xs]
none = [(712, 8, 0), (720, 4, 0), (724, 4, 0), (728, 8, 0)]
vectors += [(788, [(708, 4, phase)] + none) for phase in (0, 1, 2, 3)]
vectors += [(788, [(708, 4, phase)] + none[:j] + none[j + 1:]) for phase in (1, 2) for j in range(4)]
# 4 bytes of k, or of the first stand, outside phase 3, the lower or the upper ones
vectors += [(788, [(708, 4, phase)] + none + [(at, 4, 1)]) for phase in (1, 2) for at in (712, 716, 728, 732)]
no_dip = [(736, 8, 0), (744, 4, 0), (772, 4, 0)]
no_values = [(100, 8, 0), (708, 4, 0)] + no_dip + none + [(108 + 8 * j, 8, 0) for j in range(50)] + [(686, 2, 0)]
empty = no_values + [(88, 4, 0), (80, 8, 0), (96, 4, 0)]
one = [(100, 8, 1), (108, 4, 5)]
vectors += [(788, empty), (788, empty + [(80, 8, 1)]), (788, empty + one), (788, empty + [(88, 4, 1)] + one), (788, empty + [(88, 4, 1)])]
# V of which 4 bytes are 0, without and with a last half, in phases 0 and 1
vectors += [(788, empty + [(100, 8, FOUR + 1), (88, 4, whole), (708, 4, phase)]) for whole in (0, 1) for phase in (0, 1)]
vectors += [(788, [(48, 4, 0), (44, 4, t)]) for t in (49, 50)]
vectors += [(788, [(748, 8, 7), (756, 4, magnitude)]) for magnitude in (9, 0)]
vectors += [(788, [(36, 4, 60), (712, 8, k), (724, 4, 0)]) for k in (121, 120)]
# a mark where it is used, and where it is not: the half in progress, without a sample and with one
vectors += [(788, [(68, 4, count), (72, 8, 0), (92, 4, mark)]) for count in (0, 1) for mark in (0, 1)]
# the last half, where there is none and where there is one
vectors += [(788, empty + [(88, 4, whole), (96, 4, mark)]) for whole in (0, 1) for mark in (0, 1)]
# the first value, where there is none and where there is one; the second, where there is one value
vectors += [(788, no_values + [(588, 1, mark)]) for mark in (0, 1)]
vectors += [(788, no_values + one + [(at, 1, mark)]) for at in (588, 589) for mark in (0, 1, 2)]
# the last of N values, where there is one fewer and where there are all, in which the phase is 0 and 1; and value 120 at 60 Hz
few = [(100, 8, 99), (504, 4, 0), (708, 4, 0)] + no_dip + none
vectors += [(788, few + [(687, 1, mark)]) for mark in (0, 1)]
vectors += [(788, few + [(100, 8, 100), (708, 4, 1), (687, 1, mark)]) for mark in (0, 1, 2)]
vectors += [(788, [(36, 4, 60), (707, 1, mark)]) for mark in (0, 1, 2)]
# the dip, swell and interruption, where none stands and where one does
vectors += [(788, [(736 + 12 * j, 8, start), (744 + 12 * j, 4, 0), (772 + 4 * j, 4, mark)]) for j in range(3) for start in (0, 1, 300) for mark in (0, 1, 2)]
# starts at V and above it, where V is the last number of 4 bytes, the next one, and its end
vectors += [(788, [(100, 8, v), (736 + 12 * j, 8, v + more)]) for v in (FOUR, FOUR + 1, LAST) for j in range(3) for more in (0, 1)]
# the change: outside phase 3, which needs phase 0 below N; with V below k + N, also where that passes V's end; and with V from there on
vectors += [(788, [(708, 4, phase), (784, 4, mark)] + none) for phase in (1, 2) for mark in (0, 1)]
vectors += [(788, few + [(687, 1, 0), (784, 4, mark)]) for mark in (0, 1)]
vectors += [(788, [(724, 4, 0), (728, 8, 0), (712, 8, k), (784, 4, mark)]) for k in (200, 201, 300) for mark in (0, 1)]
vectors += [(788, [(724, 4, 0), (100, 8, v), (784, 4, mark)]) for v in (249, 250) for mark in (0, 1)]
for last in (FOUR, LAST):
    end = [(724, 4, 0), (728, 8, 0), (100, 8, last)]
    vectors += [(788, end + [(712, 8, k), (784, 4, mark)]) for k in (last - 100, last - 99, last) for mark in (0, 1)]
    vectors += [(788, [(100, 8, last), (712, 8, last - 120), (728, 8, stand)]) for stand in (last - 121, last - 120, last, last + 1)]

if len(sys.argv) != 2:
    sys.exit(__doc__)
with open(os.path.join(sys.argv[1], 'stdin'), 'wb') as file, open(os.path.join(sys.argv[1], 'stdout'), 'w') as expected:
    file.write(GOOD)
    for length, changes in vectors:
        image = bytearray(GOOD) + bytearray(20)
        changes = changes or [(0, 1, GOOD[0])]
        for j, (offset, width, x) in enumerate(changes):
            image[offset:offset + width] = x.to_bytes(width, 'little')
            more = 128 if j + 1 < len(changes) else 0
            file.write(struct.pack('<HHHQ', length, offset, width + more, x))
        expected.write('%d\n' % refusal(bytes(image[:length])))
