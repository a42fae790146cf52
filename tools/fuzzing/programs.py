"""Running the programs as `rt run` builds them, and reading their own sizes."""

import array
import fcntl
import os
import re
import subprocess
import termios
import threading
import time

ROOT = os.path.dirname(os.path.dirname(os.path.dirname(os.path.abspath(__file__))))


def command(name, words):
    return [os.path.join(ROOT, "crates", name, "out", name), *words]


def carried_out(name, words, stdin=subprocess.DEVNULL):
    """A run of a program to its end, over a file or a text."""
    given = {"input": stdin} if isinstance(stdin, bytes) else {"stdin": stdin}
    return subprocess.run(command(name, words), capture_output=True, **given)


def state_of(process):
    """What a process does (R, S and so on), and its greatest resident size in KiB so far: none and 0 once it has ended."""
    with open(f"/proc/{process.pid}/status") as status:
        text = status.read()
    size = re.search(r"VmHWM:\s*(\d+) kB", text)
    return (re.search(r"State:\s*(\w)", text).group(1), int(size.group(1))) if size else (None, 0)


class Run:
    """A run of a program: what it writes, and its own greatest resident size before its input is closed.

    The last of what is fed comes once all before it is taken, since a program may end at it."""

    def __init__(self, name, words, front, last=b"", **more):
        pipes = {"stdin": subprocess.PIPE, "stdout": subprocess.PIPE, "stderr": subprocess.PIPE}
        self.process = subprocess.Popen(command(name, words), **pipes, **more)
        self.written, self.said = [], []
        readers = [
            threading.Thread(target=self.read, args=pair)
            for pair in ((self.process.stdout, self.written), (self.process.stderr, self.said))
        ]
        for reader in readers:
            reader.start()
        self.peak = max(self.fed(front), self.fed(last))
        self.feed(b"", True)
        for reader in readers:
            reader.join()
        self.stdout, self.stderr = b"".join(self.written), b"".join(self.said)
        self.returncode = self.process.wait()

    def read(self, pipe, parts):
        for part in iter(lambda: pipe.read1(1 << 16), b""):
            parts.append(part)

    def feed(self, text, end=False):
        try:
            self.process.stdin.write(text)
            self.process.stdin.flush()
            if end:
                self.process.stdin.close()
        except BrokenPipeError:
            pass

    def fed(self, text):
        """The greatest resident size once the program has taken this text and waits for more, or 0 where it has ended."""
        self.feed(text)
        state, peak = state_of(self.process)
        while state is not None and (self.waiting() or state != "S"):
            time.sleep(0.001)
            state, size = state_of(self.process)
            peak = max(peak, size)
        return peak

    def waiting(self):
        """How much of what was fed the program has not taken."""
        count = array.array("i", [0])
        fcntl.ioctl(self.process.stdin, termios.FIONREAD, count)
        return count[0]
