#!/usr/bin/env python3
"""Kills the example host at many moments and lets it go on: LOG must become, byte for byte, what a run that nobody kills prints.

    python3 tests/kills.py LOG EVENT_PROGRAM [KILLS]

First at each call that changes a file, in turn, also half-way through each write; also where a run that goes on finds a STATE of version 2. Then at random
moments, KILLS times or more (400): from a file, and from a pipe that is fed from where STATE stands. Last, many runs of a few samples each, which nobody kills
and which share one pipe.
After each kill LOG must be a beginning of the text, and hold what STATE counts: no record is lost, none comes twice, none is invented.
"""
import itertools
import os
import random
import subprocess
import sys
import time

sys.dont_write_bytecode = True
from runs import KILLED, Channel, example, preload, read, work_folder, write


def check(condition, *what):
    if not condition:
        sys.exit(" ".join(["different:", *map(str, what)]))


class Kills:
    """What the kills so far have left: how often lines that STATE does not count, and how often a STATE.new."""

    def __init__(self, channel, text):
        self.channel, self.text = channel, text
        self.count = self.lines = self.beside = 0
        self.failed = None  # LOG after a power failure

    def look(self, status, what):
        """Looks at what a run has left that may have been killed; tells whether it was."""
        check(status in (0, KILLED), what, "ends with", status)
        if status == 0:
            check(read(self.channel.log) == self.text, what, "LOG differs")
            check(not os.path.exists(self.channel.state + ".new"), what, "a STATE.new is left")
            return False
        log, length = read(self.channel.log), self.channel.numbers()[1]
        check(len(log) >= length and self.text.startswith(log[:length]), what, "LOG of", len(log), "bytes,", length, "in STATE")
        check(self.text.startswith(log) or log == self.failed, what, "LOG has other lines behind", length, "bytes")
        self.count += 1
        self.lines += len(log) > length
        self.beside += os.path.exists(self.channel.state + ".new")
        return True

    def lose(self):
        """What a power failure may do, too, to lines that STATE does not count: lose them, or leave other bytes in their place."""
        length = self.channel.numbers()[1]
        behind = len(read(self.channel.log)) - length
        if behind == 0:
            return
        self.failed = read(self.channel.log)[:length] + random.choice((b"", bytes(behind), b"dip 1 2 3 4\nvalu"))
        write(self.channel.log, self.failed)

    def __str__(self):
        return f"{self.count} kills, {self.lines} left lines that STATE does not count, {self.beside} a STATE.new"


def at_each_call(channel, text, name, between=lambda: None):
    """A run killed at its n-th call, then one that goes on and is killed at its own n-th call, then one that nobody kills; for each n there is. What is to be
    done between two runs is done there."""
    kills = Kills(channel, text)
    for call, what in ("write", "kill"), ("write", "half-kill"), ("fsync", "kill"), ("rename", "kill"), ("ftruncate", "kill"):
        for number in itertools.count(1):
            fault = f"{call}:{number}:{what}"
            channel.remove()
            # Only a run that goes on cuts LOG.
            first = kills.look(channel.run("rename:3:kill" if call == "ftruncate" else fault)[0], fault)
            between()
            second = kills.look(channel.run(fault)[0], fault)
            between()
            check(not kills.look(channel.run()[0], fault), fault, "the last run is killed")
            if not second and (not first or call == "ftruncate"):
                break
        check(number > 1, "no", call, "is killed")
    print(f"kills: {name}, at each call: {kills}")


def started(channel, pipe):
    """A run from the file, or from a pipe that another process feeds from where STATE stands; and that process."""
    if not pipe:
        with open(channel.recording, "rb") as recording:
            return subprocess.Popen(channel.words(), stdin=recording), None
    place = 36 + 2 * channel.numbers()[0] if os.path.exists(channel.state) else 0
    feeder = subprocess.Popen(["tail", "-c", f"+{place + 1}", channel.recording], stdout=subprocess.PIPE)
    run = subprocess.Popen(channel.words(), stdin=feeder.stdout)
    feeder.stdout.close()
    return run, feeder


def whole_run(channel, text):
    """How long a run takes that nobody kills."""
    channel.remove()
    begun = time.monotonic()
    check(channel.run() == (0, "") and read(channel.log) == text, "a run that nobody kills")
    return time.monotonic() - begun


def at_random(channel, text, wanted, longest, pipe):
    """Runs that are killed after random times until there are enough kills. A recording that is done begins again."""
    channel.remove()
    kills, done = Kills(channel, text), 0
    while kills.count < wanted or done == 0:
        run, feeder = started(channel, pipe)
        if kills.count < wanted:
            time.sleep(random.uniform(0, longest))
            run.kill()
        status = run.wait()
        if feeder:
            feeder.wait()
        if not kills.look(status, "a random moment"):
            done += 1
            channel.remove()
        elif random.random() < 0.5:
            kills.lose()
    print(f"kills: from a {'pipe' if pipe else 'file'}, at random moments: {kills}; {done} recordings done")
    check(kills.lines > 0, "no kill has hit the writing of lines")


def handed_over(channel, text):
    """Runs of a few samples that share one pipe, until one finds the end and writes the count of values."""
    channel.remove()
    samples = (os.path.getsize(channel.recording) - 36) // 2
    runs = taken = 0
    feeder = subprocess.Popen(["cat", channel.recording], stdout=subprocess.PIPE)
    while read(channel.log) != text:
        most = random.choice((0, 1, 7, 8, 100, 1000, 5000))
        status = subprocess.run(channel.words(most), stdin=feeder.stdout).returncode
        runs += 1
        taken = min(samples, taken + most)
        check(status == 0 and channel.numbers()[0] == taken and text.startswith(read(channel.log)), "a shared pipe, run", runs, "which ends with", status)
    feeder.stdout.close()
    check(feeder.wait() == 0, "a shared pipe has not been read to its end")
    print(f"kills: none, {runs} runs that share a pipe")


def main():
    if len(sys.argv) not in (3, 4):
        sys.exit(__doc__)
    log, event_program = sys.argv[1:3]
    wanted = int(sys.argv[3]) if len(sys.argv) == 4 else 400
    with work_folder() as folder:
        library = preload(log)
        for name in "crusher", "busy":
            recording, text = example(name)
            channel = Channel(log, library, folder, recording)
            at_each_call(channel, text, name)
            at_each_call(channel, text, name + ", updated from version 2", channel.make_earlier)
        # The busy example many times over: most of a run is spent in writing.
        channel = Channel(log, library, folder, recording[:36] + 40 * recording[36:])
        with open(channel.recording, "rb") as file:
            text = subprocess.run([event_program], stdin=file, stdout=subprocess.PIPE).stdout
        longest = min(whole_run(channel, text) for _ in range(3)) / 4
        at_random(channel, text, wanted - wanted // 2, longest, pipe=False)
        at_random(channel, text, wanted // 2, longest, pipe=True)
        handed_over(channel, text)


main()
