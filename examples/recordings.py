#!/usr/bin/env python3
"""Writes the recordings of this folder, worked.bin, crusher.bin and busy.bin: settings, then samples; and feeder_three.bin, whose samples are of three channels in
turn.

    python3 examples/recordings.py FOLDER

Whole numbers only, so that the bytes are the same on each machine.
"""
import os
import struct
import sys

# M, F, U, T, H, I, D, W, G: see PQ_SETTINGS_.. in include/pq.h.
WORKED = (8, 50, 1600, 300, 150, 500, 9000, 11000, 200)
# 64 samples in a half-cycle, a count is 20 mV: 230 V are 11500 counts. T is 3 %, half of it in a change.
CRUSHER = (64, 50, 16 * 11500, 300, 150, 500, 9000, 11000, 200)

# A quarter of a sine wave, 32768 at its top, at the middles of 32 parts.
QUARTER = (
    804, 2411, 4011, 5602, 7180, 8740, 10279, 11793, 13279, 14733, 16151, 17531, 18868, 20160, 21403, 22595,
    23732, 24812, 25833, 26791, 27684, 28511, 29269, 29957, 30572, 31114, 31581, 31972, 32286, 32522, 32679, 32758,
)
PEAK = 16263  # 11500 counts times the root of 2


def half(number, level, ahead=0):
    """Half-cycle `number` of a sine wave at `level` hundredths of a percent of 230 V, which is so many samples ahead."""
    wave = QUARTER + QUARTER[::-1]
    places = [number * len(wave) + ahead + i for i in range(len(wave))]
    return [(-1) ** (i // len(wave)) * ((level * PEAK * wave[i % len(wave)] + 163840000) // 327680000) for i in places]


def start(lowest, held, rising, running):
    """Levels of a motor's start: held at the lowest while the rotor stands, then rising to the running load's."""
    return [lowest] * held + [lowest + (running - lowest) * j // rising for j in range(1, rising + 1)]


def crusher():
    """A quiet feed; an empty crusher's start, to 93 %; its run; a start under load, to 88 %; its run."""
    levels = [10000] * 125 + start(9300, 20, 80, 9920) + [9920] * 130 + start(8800, 35, 90, 9880) + [9880] * 120
    return [x for number, level in enumerate(levels) for x in half(number, level)]


def feeder():
    """Three phases, a third of a period apart: a quiet feed; a motor's start, to 94, 95 and 96 %; its run; then an earth fault, in which a falls to 60 % and b rises to 113 %; its run again."""
    period = 4 * len(QUARTER)
    ahead = [0, round(2 * period / 3), round(period / 3)]
    levels = [
        [10000] * 110 + start(lowest, 6, 6, 9900) + [9900] * 115 + [fault] * 6 + [9900] * 6
        for lowest, fault in ((9400, 6000), (9500, 11300), (9600, 9900))
    ]
    return [x for number, three in enumerate(zip(*levels)) for triple in zip(*map(half, [number] * 3, three, ahead)) for x in triple]


def worked():
    return [100] * 24 + [50] * 16 + [100] * 24


def busy():
    """More records than a small buffer holds: dips, swells and interruptions one after the other, between two changes."""
    events = [50, 50, 100, 100, 120, 120, 100, 100, 1, 1, 100, 100] * 30
    return [x for level in [100] * 110 + [96] * 110 + events + [100] * 110 for x in [level] * 8]


def write(folder, name, settings, samples):
    with open(os.path.join(folder, name), "wb") as file:
        file.write(struct.pack("<9I", *settings) + struct.pack(f"<{len(samples)}h", *samples))


if __name__ == "__main__":
    if len(sys.argv) != 2:
        sys.exit(__doc__)
    write(sys.argv[1], "worked.bin", WORKED, worked())
    write(sys.argv[1], "crusher.bin", CRUSHER, crusher())
    write(sys.argv[1], "busy.bin", WORKED, busy())
    write(sys.argv[1], "feeder_three.bin", CRUSHER, feeder())
