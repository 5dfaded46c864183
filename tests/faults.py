#!/usr/bin/env python3
"""Runs the example host, convert beside it, and the event programs, while their reads and writes fail, and holds what they print to what they should.

    python3 tests/faults.py LOG [EVENT_PROGRAM [EVENT_PROGRAM_OF_THREE]]

LOG and the event programs print the same, but for the word behind a clipped record's line, which only the host prints; they differ in the bytes read at a time
and in the status after a failure, which the event programs do not have. The event program of three channels is given each sample three times: three equal
channels have the records of one.
"""
import fcntl
import itertools
import os
import signal
import struct
import subprocess
import sys
import time

sys.dont_write_bytecode = True
from runs import KILLED, Channel, environment, example, preload, read, recordings, work_folder, write

SETTINGS = 36
TEXTS = {
    "EIO": "Input/output error", "ENOSPC": "No space left on device", "EPIPE": "Broken pipe",
    "EBADF": "Bad file descriptor", "EACCES": "Permission denied", "EISDIR": "Is a directory",
}
cases = 0


def same(name, got, want):
    global cases
    cases += 1
    if got != want:
        sys.exit(f"different: {name}\n got {got}\nwant {want}")


class Program:
    def __init__(self, path, name, block, failed, library, folder, channels=1):
        self.path, self.name, self.block, self.failed, self.channels = path, name, block, failed, channels
        self.library, self.folder = library, folder

    def given(self, recording):
        """The recording of one channel as the program is given it; a block counts the bytes of one channel, too."""
        samples = [recording[i : i + 2] * self.channels for i in range(SETTINGS, len(recording), 2)]
        return recording if self.channels == 1 else recording[:SETTINGS] + b"".join(samples)

    def run(self, stdin, fault=None, stdout=subprocess.PIPE, **more):
        """Status, standard output and standard error. Standard input is a file's content, or an open file."""
        content = isinstance(stdin, bytes)
        file = open(write(os.path.join(self.folder, "input"), self.given(stdin)), "rb") if content else stdin
        done = subprocess.run([self.path], stdin=file, stdout=stdout, stderr=subprocess.PIPE, env=environment(self.library, fault), **more)
        if content:
            file.close()
        return done.returncode, done.stdout, done.stderr.decode()

    def lines(self, recording):
        """The lines of the recording's records, with the heading and without the count of values."""
        _, text, _ = self.run(recording)
        return text[: text.rindex(b"values ")]

    def message(self, which, error):
        return f"{self.name}: standard {which}: {TEXTS[error]}\n"


def clipped(program):
    """A clipped dip and one that is not: the host alone tells them apart."""
    mark = b" clipped" if program.name == "log" else b""
    for sample, word in (32767, mark), (-32767, b""):
        samples = [25000] * 24 + [sample] + [15000] * 15 + [25000] * 24
        recording = struct.pack("<9I", 8, 50, 16 * 25000, *recordings.WORKED[3:]) + struct.pack(f"<{len(samples)}h", *samples)
        text = b"kind start halves first second\ndip 3 3 266793 0" + word + b"\nvalues 7\n"
        same(f"{program.name}: a dip with a sample of {sample}", program.run(recording), (0, text, ""))


def tried_again(program):
    """Reads and writes that are interrupted, would have to wait, or are short: the whole text, and nothing said."""
    for name in "worked", "crusher", "busy":
        recording, text = example(name)
        for call, what in itertools.product(("read", "write"), ("EINTR", "EAGAIN", "half")):
            same(f"{program.name}: {name}, {call}, {what}", program.run(recording, f"{call}:odd:{what}"), (0, text, ""))
    recording, text = example("worked")
    for call, what, number in itertools.product(("read", "write"), ("EINTR", "EAGAIN", "half"), range(1, 6)):
        same(f"{program.name}: {call} {number}, {what}", program.run(recording, f"{call}:{number}:{what}"), (0, text, ""))


def waits(program):
    """A pipe that would have to wait, as standard input and as standard output, with pauses on the other side."""
    recording, text = example("worked")
    end, start = os.pipe()
    os.set_blocking(end, False)
    running = subprocess.Popen([program.path], stdin=end, stdout=subprocess.PIPE, stderr=subprocess.PIPE)
    given = program.given(recording)
    for piece in given[:9], given[9:57], given[57:]:
        time.sleep(0.05)
        os.write(start, piece)
    os.close(start)
    os.close(end)
    same(f"{program.name}: waits for samples", (*running.communicate(), running.wait()), (text, b"", 0))

    many = recording[:SETTINGS] + 20 * example("busy")[0][SETTINGS:]
    status, text, said = program.run(many)
    end, start = os.pipe()
    fcntl.fcntl(end, fcntl.F_SETPIPE_SZ, 4096)
    os.set_blocking(start, False)
    with open(write(os.path.join(program.folder, "many"), program.given(many)), "rb") as file:
        running = subprocess.Popen([program.path], stdin=file, stdout=start, stderr=subprocess.PIPE)
    os.close(start)
    time.sleep(0.1)
    with open(end, "rb") as file:
        got = file.read()
    same(f"{program.name}: waits for its reader", (got, running.communicate()[1].decode(), running.wait()), (text, said, 0))
    same(f"{program.name}: more text than a pipe holds", (status, len(text) > 2 * 4096), (0, True))


def reads_fail(program):
    """A read that fails: the records of the samples read before, no count of values. Nothing at all where it was the settings' read."""
    failed = (program.failed, program.message("input", "EIO"))
    for name in "worked", "busy":
        recording, _ = example(name)
        reads = 3 + (len(recording) - SETTINGS) // program.block  # the last one finds the end
        for number in range(1, reads + 1):
            want = program.lines(recording[: SETTINGS + program.block * (number - 2)]) if number > 1 else b""
            status, got, said = program.run(recording, f"read:{number}:EIO")
            same(f"{program.name}: {name}, read {number} of {reads} fails", (got, status, said), (want, *failed))
        same(f"{program.name}: {name}, no further read", program.run(recording, f"read:{reads + 1}:EIO")[1:], (example(name)[1], ""))

    recording, _ = example("busy")
    for length, number, what in (20, 2, "settings"), (SETTINGS + program.block + 1001, 4, "a block"):
        end, start = os.pipe()
        os.write(start, program.given(recording[:length]))
        status, got, said = program.run(end, f"read:{number}:EIO")
        os.close(start)
        os.close(end)
        want = program.lines(recording[:length]) if length > SETTINGS else b""
        same(f"{program.name}: a read fails in the middle of {what}", (got, status, said), (want, *failed))

    same(f"{program.name}: no standard input", program.run(None, preexec_fn=lambda: os.close(0)), (program.failed, b"", program.message("input", "EBADF")))
    folder = os.open(program.folder, os.O_RDONLY)
    same(f"{program.name}: a folder as standard input", program.run(folder), (program.failed, b"", program.message("input", "EISDIR")))
    os.close(folder)


def writes_fail(program):
    """A write that fails: nothing is written after it. What came before it is what the program has written if it is killed there."""
    for name in "worked", "busy":
        recording, text = example(name)
        for number in itertools.count(1):
            status, before, _ = program.run(recording, f"write:{number}:kill")
            if status != KILLED:
                break
            for error in "ENOSPC", "EIO", "EPIPE":
                got = program.run(recording, f"write:{number}:{error}")
                same(f"{program.name}: {name}, write {number}, {error}", got, (program.failed, before, program.message("output", error)))
            same(f"{program.name}: {name}, write {number}, text before", (before != text, text[: len(before)]), (True, before))
    for name, recording in ("worked", example("worked")[0]), ("refused settings", b"\7" + example("worked")[0][1:]):
        with open("/dev/full", "wb") as full:
            got = program.run(recording, stdout=full)
        same(f"{program.name}: {name}, full disk", got, (program.failed, None, program.message("output", "ENOSPC")))
    for default in False, True:
        end, start = os.pipe()
        os.close(end)
        got = program.run(example("worked")[0], stdout=start, restore_signals=default)
        os.close(start)
        # The event programs ignore the signal: the language's runtime does so before they begin.
        ends = default and program.name == "log"
        want = (-signal.SIGPIPE, None, "") if ends else (program.failed, None, program.message("output", "EPIPE"))
        same(f"{program.name}: closed pipe, SIGPIPE {'ends it' if ends else 'ignored'}", got, want)


def not_ended(program):
    """The event program tells of the events that stand at the end of the input."""
    def levels(*parts):
        samples = [level for level, halves in parts for _ in range(8 * halves)]
        return struct.pack("<9I", *recordings.WORKED) + struct.pack(f"<{len(samples)}h", *samples)

    steady = (100, 130)
    for recording, kinds in (
        (levels((100, 3)), []),
        (levels((100, 3), (50, 2)), ["dip"]),
        (levels((100, 3), (50, 2), (100, 3)), []),
        (levels((100, 3), (120, 2)), ["swell"]),
        (levels((100, 3), (1, 3)), ["dip", "interruption"]),
        (levels(steady, (96, 3)), ["rvc"]),
        (levels(steady, (96, 101)), ["rvc"]),
        (levels(steady, (96, 110)), []),
        (levels((50, 3), (100, 130), (96, 3), (50, 3)), ["dip", "rvc"]),
        (levels(steady, (96, 3), (120, 3)), ["swell", "rvc"]),
        (levels(steady, (96, 3), (1, 3)), ["dip", "interruption", "rvc"]),
        (levels((0, 130)), ["dip", "interruption"]),
    ):
        status, text, said = program.run(recording)
        same(f"{program.name}: not ended: {kinds}", (status, said), (0, "".join(f"{program.name}: not ended: {kind}\n" for kind in kinds)))
        same(f"{program.name}: not ended: {kinds}, values", text.splitlines()[-1], b"values %d" % ((len(recording) - SETTINGS) // 16 - 1))
        same(f"{program.name}: not ended: {kinds}, waits and short writes", program.run(recording, "write:odd:half"), (status, text, said))
    _, text, _ = program.run(levels((100, 3), (50, 2)))
    same(f"{program.name}: not ended, and a read fails", program.run(levels((100, 3), (50, 2)), "read:3:EIO"),
         (program.failed, text[: text.rindex(b"values")], program.message("input", "EIO")))


def kept(channel, text):
    """The channel in STATE: after each call that fails the run ends with 2, and one more run makes LOG what it should be.
    From the beginning, and in a run that goes on and has something to cut."""
    failing = (
        ("open", "EACCES"), ("read", "EIO"), ("write", "ENOSPC"), ("lseek", "EIO"),
        ("fsync", "EIO"), ("close", "EIO"), ("rename", "EIO"), ("ftruncate", "EIO"),
    )
    for earlier, (call, error) in itertools.product((None, 2700), failing):
        for number in itertools.count(1):
            channel.remove()
            if earlier:
                same("log: an earlier run", channel.run("rename:3:kill", earlier)[0], KILLED)
            status, said = channel.run(f"{call}:{number}:{error}")
            if status == 0:
                same(f"log: STATE, {call} {number - 1} was the last", read(channel.log), text)
                break
            same(f"log: STATE, {call} {number}, {error}", (status, said[:5], said.split(": ")[2:]), (2, "log: ", [TEXTS[error] + "\n"]))
            same(f"log: STATE, after {call} {number}, {error}", (*channel.run(), read(channel.log)), (0, "", text))
        same(f"log: STATE, a {call} has failed", number > 1, call != "ftruncate" or earlier is not None)
    for fault in "read:odd:EINTR", "read:odd:half", "write:odd:EAGAIN", "write:odd:half", "fsync:odd:EINTR":
        channel.remove()
        same(f"log: STATE, {fault}", (*channel.run(fault), read(channel.log)), (0, "", text))


def safe(channel, text):
    """A power failure loses nothing that it must not lose, with STATE and LOG in folders of their own: from the beginning, and in a run that has
    nothing to do but to cut."""
    together = channel.log
    apart = os.path.join(os.path.dirname(channel.state), "apart")
    os.mkdir(apart)
    channel.log = os.path.join(apart, "log")
    for fault in "rename:all:unsynced", "read:all:unsynced", "close:all:unsynced":
        channel.remove()
        same(f"log: STATE, {fault}", (*channel.run(fault), read(channel.log)), (0, "", text))
        same(f"log: STATE, {fault}, cut", (*channel.run(fault, 0), read(channel.log)), (0, "", text[: text.rindex(b"values ")]))
    channel.remove()
    channel.log = together


def odd_byte(channel):
    """A byte that makes no sample is no reason for another STATE."""
    channel.remove()
    end, start = os.pipe()
    os.write(start, read(channel.recording)[: SETTINGS + 1])
    os.close(start)
    same("log: an odd byte, one STATE", channel.run("rename:2:EIO", stdin=end), (0, ""))
    os.close(end)


def no_files(channel):
    """Files that cannot be there."""
    channel.remove()
    state, log = channel.state, channel.log
    nowhere = os.path.join(os.path.dirname(state), "nowhere", "file")
    for channel.state, channel.log, name, text in (
        (nowhere, log, nowhere + ".new", "No such file or directory"),
        (state, nowhere, nowhere, "No such file or directory"),
        (state, os.path.dirname(log), os.path.dirname(log), "Is a directory"),
        (state, "/dev/full", "/dev/full", "Invalid argument"),
    ):
        same(f"log: no file at {name}", channel.run(), (2, f"log: {name}: {text}\n"))
        same("log: no STATE", os.path.exists(channel.state), False)


def converts(path, library, folder):
    """convert: a call that fails ends it with 2, one where it is killed ends it; either way OUT is as it was or whole, and one more run makes it whole. Nothing
    is renamed, or closed, before it is synced, and at its end OUT's folder is."""
    before = b"what was there"
    records = b"".join(struct.pack("<B3x4I", kind, 151, 1, 6368, 6368) for kind in (1, 2, 3, 4))
    converted = b"".join(struct.pack("<B3x2Q2I", kind, 151, 1, 6368, 6368) for kind in (1, 2, 3, 4))
    earlier, out = write(os.path.join(folder, "earlier"), records), os.path.join(folder, "out")

    def run(fault=None):
        done = subprocess.run([path, "records", earlier, out], capture_output=True, env=environment(library, fault))
        return done.returncode, done.stdout, done.stderr.decode()

    for call, what in (
        ("open", "EACCES"), ("read", "EIO"), ("write", "ENOSPC"), ("fsync", "EIO"), ("close", "EIO"), ("rename", "EIO"),
        ("open", "kill"), ("write", "kill"), ("write", "half-kill"), ("fsync", "kill"), ("close", "kill"), ("rename", "kill"),
    ):
        for number in itertools.count(1):
            fault = f"{call}:{number}:{what}"
            write(out, before)
            status, text, said = run(fault)
            if status == 0:
                same(f"convert: {call} {number - 1} was the last", (number > 1, read(out), said), (True, converted, ""))
                break
            if what in TEXTS:
                same(f"convert: {fault}", (status, text, said[:9], said.split(": ")[2:]), (2, b"", "convert: ", [TEXTS[what] + "\n"]))
            else:
                same(f"convert: {fault}", status, KILLED)
            # The last open, fsync and close are those of the folder, behind the rename.
            same(f"convert: {fault}, OUT", read(out) in ((before, converted) if call in ("open", "fsync", "close") else (before,)), True)
            same(f"convert: after {fault}", (*run(), read(out)), (0, b"", "", converted))
    for fault in "read:odd:half", "write:odd:half", "rename:all:unsynced", "close:all:unsynced", "exit:all:unsynced":
        write(out, before)
        same(f"convert: {fault}", (*run(fault), read(out)), (0, b"", "", converted))


def main():
    if len(sys.argv) not in (2, 3, 4):
        sys.exit(__doc__)
    with work_folder() as folder:
        library = preload(sys.argv[1])
        log = Program(sys.argv[1], "log", 4096, 2, library, folder)
        programs = [log] + [Program(path, "event_log", 8192, 0, library, folder) for path in sys.argv[2:3]]
        programs += [Program(path, "event_log_three", 8192, 0, library, folder, channels=3) for path in sys.argv[3:]]
        text = example("worked")[1]
        same("log: a write is lost at the close", log.run(example("worked")[0], "close:1:EIO"), (2, text, log.message("output", "EIO")))
        for program in programs:
            clipped(program)
            tried_again(program)
            waits(program)
            reads_fail(program)
            writes_fail(program)
        recording, text = example("busy")
        channel = Channel(log.path, library, folder, recording)
        kept(channel, text)
        safe(channel, text)
        odd_byte(channel)
        no_files(channel)
        converts(os.path.join(os.path.dirname(os.path.abspath(log.path)), "convert"), library, folder)
        for program in programs[1:]:
            not_ended(program)
    print(f"faults: {cases} cases as they should be")


main()
