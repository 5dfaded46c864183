#!/usr/bin/env python3
"""Computes the records in the first table of docs/INTEGRATION.md again: sine waves of 60 s, sampled at a fixed 12.8 kHz, where a supply that is not at 50 Hz is not
locked, and the same locked, 128 samples to each of its half-cycles.

    python3 tests/unlocked.py EVENT_PROGRAM
"""
import array
import math
import struct
import subprocess
import sys

SETTINGS = struct.pack("<9I", 128, 50, 16 * 11500, 300, 150, 500, 9000, 11000, 200)
SECONDS = 60


def records(frequency, level, locked):
    """How many records of each kind there are, and what has not ended; `level` gives percent of U at a time in seconds."""
    step = 1 / (2 * frequency * 128) if locked else 1 / 12800
    peak = 11500 * math.sqrt(2) / 100
    turn = 2 * math.pi * frequency * step
    wave = array.array("h", (round(level(j * step) * peak * math.sin(turn * (j + 0.5))) for j in range(round(SECONDS / step))))
    done = subprocess.run([sys.argv[1]], input=SETTINGS + wave.tobytes(), capture_output=True, check=True)
    kinds = [line.split()[0] for line in done.stdout.decode().splitlines()[1:-1]]
    return {kind: kinds.count(kind) for kind in kinds}, [line.split()[-1] for line in done.stderr.decode().splitlines()]


def main():
    if len(sys.argv) != 2 or sys.byteorder != "little":
        sys.exit(__doc__)
    change = lambda time: 95.5 if 20 <= time < 30 else 100
    for name, frequency, level, unlocked, locked in (
        ("49.5 Hz, steady at 100 %", 49.5, lambda _: 100, ({}, []), ({}, [])),
        ("48 Hz, steady at 100 %", 48, lambda _: 100, ({}, []), ({}, [])),
        ("48 Hz, steady at 91 %", 48, lambda _: 91, ({"dip": 4 * SECONDS}, []), ({}, [])),
        ("49.5 Hz, steady at 90.3 %", 49.5, lambda _: 90.3, ({}, ["dip"]), ({}, [])),
        ("48 Hz, from 100 to 95.5 % and back after 10 s", 48, change, ({}, ["rvc"]), ({"rvc": 2}, [])),
    ):
        got = records(frequency, level, False), records(frequency, level, True)
        if got != (unlocked, locked):
            sys.exit(f"different: {name}: {got}, not {(unlocked, locked)}")
    print("same: samples that are not locked to the mains, as docs/INTEGRATION.md has them")


main()
