"""What faults.py and kills.py share: recordings, and runs of a program with faults.c preloaded."""
import os
import subprocess
import sys
import tempfile

HERE = os.path.dirname(os.path.abspath(__file__))
EXAMPLES = os.path.join(HERE, "..", "examples")
sys.path.insert(0, EXAMPLES)
import recordings

KILLED = -9


def example(name):
    """An example's recording and its text."""
    with open(os.path.join(EXAMPLES, name + ".bin"), "rb") as recording, open(os.path.join(EXAMPLES, name + ".txt"), "rb") as text:
        return recording.read(), text.read()


def write(path, content):
    with open(path, "wb") as file:
        file.write(content)
    return path


def read(path):
    """A file's bytes; nothing where there is no file."""
    try:
        with open(path, "rb") as file:
            return file.read()
    except FileNotFoundError:
        return b""


def work_folder():
    """A folder for the files of a test: in memory if possible, since they are synced some thousand times."""
    return tempfile.TemporaryDirectory(dir="/dev/shm" if os.access("/dev/shm", os.W_OK) else None)


def preload(program):
    """Builds faults.c beside the program; gives the library's path."""
    path = os.path.join(os.path.dirname(os.path.abspath(program)), "faults.so")
    subprocess.run(["cc", "-shared", "-fPIC", "-O2", "-Wall", "-Wextra", "-Werror", os.path.join(HERE, "faults.c"), "-o", path], check=True)
    return path


def environment(library, fault):
    """The environment for a run; a fault as in faults.c, or none. The sanitizers are not to ask for the first place in the list of libraries."""
    return dict(os.environ, LC_ALL="C", **({"LD_PRELOAD": library, "FAULT": fault, "ASAN_OPTIONS": "verify_asan_link_order=0"} if fault else {}))


class Channel:
    """STATE and LOG of one channel in a folder, and the recording that goes in as a file."""

    def __init__(self, program, library, folder, recording):
        self.program, self.library = program, library
        self.state, self.log = os.path.join(folder, "state"), os.path.join(folder, "log")
        self.recording = write(os.path.join(folder, "recording.bin"), recording)

    def remove(self):
        for path in self.state, self.state + ".new", self.log:
            if os.path.exists(path):
                os.remove(path)

    def words(self, most=None):
        return [self.program, self.state, self.log] + ([str(most)] if most is not None else [])

    def run(self, fault=None, most=None, stdin=None):
        """One run from the file, or from another one that is open; gives the status and standard error. Standard output stays empty."""
        with open(self.recording, "rb") as recording:
            done = subprocess.run(self.words(most), stdin=recording if stdin is None else stdin, capture_output=True, env=environment(self.library, fault))
        assert done.stdout == b"", done.stdout
        return done.returncode, done.stderr.decode()

    def numbers(self):
        """Samples taken and bytes of LOG that STATE, of this version or of version 2, counts; 0, 0 without a STATE."""
        state = read(self.state)
        assert len(state) in (0, 796, 820), len(state)
        return (int.from_bytes(state[-32:-24], "little"), int.from_bytes(state[-24:-16], "little")) if state else (0, 0)

    def make_earlier(self):
        """Puts a STATE of this version, if there is one, into version 2's form: by convert, which stands beside the program."""
        state = read(self.state)
        if len(state) != 820:
            return
        convert = os.path.join(os.path.dirname(os.path.abspath(self.program)), "convert")
        image, back = self.state + ".image", self.state + ".back"
        subprocess.run([convert, "image", "--back", write(image, state[:788]), back], check=True)
        earlier, checksum = read(back) + state[788:-8], 14695981039346656037
        for byte in earlier:
            checksum = (checksum ^ byte) * 1099511628211 % 2**64
        write(self.state, earlier + checksum.to_bytes(8, "little"))
        os.remove(image)
        os.remove(back)
