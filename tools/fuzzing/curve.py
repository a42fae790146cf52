"""Random and damaged arguments for curve."""

import random
import subprocess
import sys
import tempfile

from fuzzing.account import Refused
from fuzzing.bench import Bench, lines_for
from fuzzing.programs import carried_out, command, state_of
from fuzzing.words import damaged_words, number, utf_8

BANDS = [3, 6, 9, 12, 15, 18, 21, 24, 30, 36, 42, 48]
USAGE = b"usage: curve "


class Curve:
    """What curve makes of its arguments by its rules: a message, or what is carried out."""

    def __init__(self, words):
        self.row, self.constraint, self.runs, self.blocks, self.message = (24, 1, 0), 7, 0, 6, None
        try:
            self.read(words)
        except Refused as no:
            self.message = no.args[0]

    def read(self, words):
        self.first, self.last = -10, -4
        if any(not utf_8(word) for word in words):
            raise Refused(b"invalid data")
        if words and words[0] in (b"rows", b"time"):
            return
        if words and words[0] == b"send":
            self.read_row(words[1:])
        else:
            self.read_run(words)
        bandwidth, waveform, interleaver = self.row
        if bandwidth not in BANDS or not 1 <= waveform <= 13 or interleaver > 3 or waveform == 4 and bandwidth in (9, 18) or waveform == 13 and bandwidth != 3:
            raise Refused(b"the standard has no such row")
        if self.constraint not in (7, 9):
            raise Refused(b"the constraint length is neither 7 nor 9")
        if self.runs and 8 <= waveform <= 12:
            raise Refused(b"the simulator has the eight phases only: waveforms 1 to 7 and 13")

    def read_row(self, words):
        if len(words) not in (0, 4):
            raise Refused(b"a row takes four numbers")
        if words:
            names = [b"bandwidth", b"waveform", b"interleaver", b"constraint length"]
            *row, self.constraint = [number(word, name, 0, (1 << 64) - 1) for word, name in zip(words, names)]
            self.row = tuple(row)

    def read_run(self, words):
        front = next((i for i, word in enumerate(words) if word.startswith(b"--")), len(words))
        self.read_row(words[:front])
        for word in words[front:]:
            name, equals, value = word.partition(b"=")
            if not equals and word == b"--svg":
                continue
            if not equals or name not in (b"--from", b"--to", b"--blocks", b"--seed"):
                raise Refused(b"there is no such word or option")
            if name == b"--from":
                self.first = number(value, b"first ratio", -128, 127)
            elif name == b"--to":
                self.last = number(value, b"last ratio", -128, 127)
            elif name == b"--blocks":
                self.blocks = number(value, b"count of blocks", 0, (1 << 64) - 1)
            else:
                number(value, b"seed", 0, (1 << 64) - 1)
        if self.first > self.last or self.blocks == 0:
            raise Refused(b"there is no ratio or no block to run")
        self.runs = self.last - self.first + 1

    def is_long(self):
        """Whether it runs for long: more than four short blocks."""
        if self.message is not None or not self.runs:
            return False
        short = self.row[0] <= 6 and self.row[1] <= 5 and self.row[2] == 0
        return not short or self.runs * self.blocks > (4 if self.constraint == 7 else 1)


def good_words(r):
    front = [b"%d" % x for x in (r.choice(BANDS + [3, 3, 6]), r.choice([1, 2, 3, 4, 5, r.randint(0, 14)]), r.choice([0, 0, 0, r.randint(0, 4)]), r.choice([7, 7, 9, 8]))]
    front = front if r.random() < 0.8 else []
    way = r.random()
    if way < 0.02:
        return [r.choice([b"rows", b"time"]), *front]
    if way < 0.3:
        return [b"send", *front]
    first = r.randint(-128, 127)
    options = [b"--from=%d" % first, b"--to=%d" % min(127, first + r.randint(0, 1)), b"--blocks=%d" % r.randint(0, 3)]
    options += [b"--seed=%d" % r.randrange(1 << 64)] * r.randrange(2) + [b"--svg"] * r.randrange(2)
    return front + r.sample(options, r.randint(0, len(options)))


# options that lack their value, or have one past its bounds, and words of other runs
OWN = [b"--", b"--svg=", b"--from", b"--to=", b"--blocks=0", b"--from=-129", b"--to=128", b"--seed=18446744073709551616", b"--seed=x", b"=", b"-1", b"+", b"send", b"rows", b"--from==1"]
ODD = [b"0x10", b"7 ", b" 7", b"1e3", b"\xd9\xa3", b"24\r", b"--svg\r", b"--to=+4", b"+7", b"007"]


def judge(words, says):
    run = carried_out("curve", words)
    said = run.stderr.decode(errors="replace").encode()
    if says.message is None:
        right = run.returncode == 0 and run.stdout and said.count(b"\n") == (says.runs or (words[:1] == [b"time"]))
    else:
        usage = says.message.startswith((b"a row", b"there", b"the first", b"the last", b"the count", b"the seed")) or says.message.endswith(b"too great")
        right = run.returncode == 1 and not run.stdout and said.startswith(b"curve: " + says.message + b"\n") and (USAGE in said) == usage
    if not right:
        sys.exit(f"{words!r}: status {run.returncode}, {run.stdout[:200]!r}, {run.stderr[:200]!r}")


def same_with_lines(r, count):
    """Damaged lines on the standard input change nothing, since it is not read."""
    with tempfile.TemporaryFile() as text:
        text.write(b"\n".join(lines_for(r, count, Bench())))
        for words in ([b"send"], [b"3", b"1", b"0", b"7", b"--from=0", b"--to=0", b"--blocks=2"]):
            text.seek(0)
            if carried_out("curve", words).stdout != carried_out("curve", words, text).stdout:
                sys.exit(f"{words!r}: lines on the standard input change what is written")
    print(f"{count} damaged lines on the standard input change nothing")


def resident_of_curve(blocks):
    """The greatest resident size in KiB once the first of two ratios is done."""
    words = ["3", "1", "0", "7", "--from=0", "--to=1", f"--blocks={blocks}"]
    run = subprocess.Popen(command("curve", words), stdout=subprocess.DEVNULL, stderr=subprocess.PIPE)
    run.stderr.readline()
    size = state_of(run)[1]
    run.communicate()
    return size


def fuzz(count, seed):
    r = random.Random(seed)
    print(f"{resident_of_curve(100)} KiB after 100 blocks, {resident_of_curve(2000)} KiB after 2,000", flush=True)
    same_with_lines(r, 100000)
    done, refused, messages = 0, 0, {}
    while done + refused < count:
        words = good_words(r)
        if r.random() < 0.6:
            words = damaged_words(r, words, OWN, ODD)
        says = Curve(words)
        if b"\0" in b"".join(words) or not words or says.is_long():
            continue
        judge(words, says)
        done, refused = done + (says.message is None), refused + (says.message is not None)
        if says.message is not None:
            messages[says.message.decode()] = messages.get(says.message.decode(), 0) + 1
    print(f"{done + refused} lists of arguments: {done} carried out, {refused} refused with the message that the rules say: {messages}")
