#!/usr/bin/env python3
"""What three channels cost beside one: python3 bench/three.py ONE THREE READ [ROUNDS]

ONE and THREE are the event programs of one channel and of three, READ a program that only reads. They run in turn on files of as many half-cycles, idle and noisy.
The time of a run is user and system time together, since the kernel parts the two by its clock's ticks; what READ takes for the same file is taken off.
Both programs feed 4096 samples of a channel at a time.
Prints nanoseconds a half-cycle, medians and in brackets the least, and their ratio."""
import math
import os
import random
import resource
import struct
import subprocess
import sys
import tempfile

SETTINGS = (50, 184000, 300, 150, 500, 9000, 11000, 200)
HALVES = 1 << 18
# Bytes that each event program reads at a time: a reading in other pieces takes another time.
PIECES = ("8192", "24576")


def blocks(m, noise):
    """Samples of one channel and of three, in bytes, of m samples in a half-cycle and that much noise, and how often they are repeated."""
    rng = random.Random(1)
    wave = [round(16263 * math.sin(math.pi * i / m)) for i in range(2 * m)]
    one = [x + rng.randint(-noise, noise) for _ in range(65536 // (2 * m)) for x in wave]
    three = [one[(i + shift) % len(one)] for i in range(len(one)) for shift in (0, 2 * m // 3, 4 * m // 3)]
    return [struct.pack(f"<{len(part)}h", *part) for part in (one, three)], HALVES * m // len(one)


def seconds(command, path):
    """The user and system time of one run."""
    before = resource.getrusage(resource.RUSAGE_CHILDREN)
    with open(path, "rb") as recording:
        subprocess.run(command, stdin=recording, stdout=subprocess.DEVNULL, check=True)
    after = resource.getrusage(resource.RUSAGE_CHILDREN)
    return after.ru_utime - before.ru_utime + after.ru_stime - before.ru_stime


def costs(runs):
    """Nanoseconds a half-cycle without the reading, from the runs of a program and of its reading: the median and the least."""
    whole, reading = (sorted(times) for times in zip(*runs))
    return [1e9 * (whole[i] - reading[i]) / HALVES for i in (len(whole) // 2, 0)]


def measure(programs, read, m, noise, rounds, folder):
    """The costs of one channel and of three."""
    parts, times = blocks(m, noise)
    paths = [os.path.join(folder, name) for name in ("one", "three")]
    for path, part in zip(paths, parts):
        with open(path, "wb") as file:
            file.write(struct.pack("<9I", m, *SETTINGS))
            for _ in range(times):
                file.write(part)
    runs = [[(seconds([program], path), seconds([read, piece], path)) for program, piece, path in zip(programs, PIECES, paths)] for _ in range(rounds)]
    return [costs(each) for each in zip(*runs)]


def main():
    programs, read = sys.argv[1:3], sys.argv[3]
    rounds = int(sys.argv[4]) if len(sys.argv) > 4 else 31
    # One processor for all, so that no run pays for a move to another.
    os.sched_setaffinity(0, {max(os.sched_getaffinity(0))})
    print("Three channels beside one: ns a half-cycle of the event programs without their reading, medians [least]")
    with tempfile.TemporaryDirectory() as folder:
        for m in (8, 64, 256):
            for name, noise in (("idle", 0), ("noisy", 400)):
                one, three = measure(programs, read, m, noise, rounds, folder)
                each = "  ".join(f"{word} {cost[0]:6.1f} [{cost[1]:5.1f}]" for word, cost in (("one", one), ("three", three)))
                print(f"M {m:3}, {name:5}  {each}  ratio {three[0] / one[0]:.2f} [{three[1] / one[1]:.2f}]")


main()
