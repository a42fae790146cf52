"""Random and damaged lines for the bench."""

import random
import sys
from collections import Counter
from math import gcd

from fuzzing.account import Receiver, Refused, needed_width
from fuzzing.lines import LONGEST, damaged_line, kinds_of
from fuzzing.programs import Run


class Bench:
    """The bench by its rules, without the search."""

    def __init__(self):
        self.plan = None
        self.receiver = None

    def answer(self, line, number):
        try:
            return self.accepted(line)
        except Refused as no:
            return b"R%02X%04X" % (no.args[0], number)

    def accepted(self, line):
        if not line or len(line) > LONGEST or line[:1] not in (b"P", b"S", b"H", b"V", b"C", b"L"):
            raise Refused(18)
        digits = line[1:]
        if len(digits) % 2 or any(c not in b"0123456789ABCDEF" for c in digits):
            raise Refused(18)
        kind, data = chr(line[0]), bytes.fromhex(digits.decode())
        return getattr(self, "line_" + kind)(data)

    def line_P(self, d):
        if len(d) < 3 or len(d) != 3 + d[2] + 9:
            raise Refused(18)
        k, p, m = d[:3]
        entries, rest = tuple(d[3 : 3 + m]), d[3 + m :]
        b, q = int.from_bytes(rest[:3], "big"), rest[3]
        f, inc = int.from_bytes(rest[4:6], "big"), int.from_bytes(rest[6:], "big")
        if k not in (7, 9):
            raise Refused(1)
        if not (1 <= p <= 12 and 1 <= m <= 32):
            raise Refused(2)
        if any(e >= 2 * p for e in entries):
            raise Refused(3)
        if not (9 <= b <= 1843200 and b % p == 0):
            raise Refused(4)
        n = b // p * m
        if n > 2211840:
            raise Refused(5)
        if q not in (1, 2, 3, 4, 5, 6, 8):
            raise Refused(6)
        if not (1 <= f <= 4096 and n % (q * f) == 0):
            raise Refused(7)
        if not (1 <= inc <= n and gcd(inc, n) == 1):
            raise Refused(8)
        if b > 256 or n > 1024:
            raise Refused(20)
        self.plan, self.receiver = (k, p, entries, b, q, f, inc, n), None
        return b"A"

    def line_S(self, d):
        if self.plan is None:
            raise Refused(19)
        q, f = self.plan[4], self.plan[5]
        if not (1 <= len(d) <= 4096 and all(v < 1 << needed_width(q) for v in d)):
            raise Refused(10)
        if len(d) < f:
            raise Refused(11)
        self.receiver = Receiver(self.plan, d)
        return b"A"

    def need(self, d, length):
        if len(d) != length:
            raise Refused(18)
        if self.receiver is None:
            raise Refused(19)

    def line_H(self, d):
        self.need(d, 6)
        self.receiver.hear(int.from_bytes(d[:3], "big"), d[3], int.from_bytes(d[4:], "big"))
        return b"A"

    def line_V(self, d):
        self.need(d, 5)
        self.receiver.note(int.from_bytes(d[:3], "big"), int.from_bytes(d[3:], "big", signed=True))
        return b"A"

    def line_C(self, d):
        self.need(d, 3)
        self.receiver.blank(int.from_bytes(d, "big"))
        return b"A"

    def line_L(self, d):
        self.need(d, 0)
        return None

    def judged(self, line, number, got):
        want = self.answer(line, number)
        if want is not None:
            return got == want
        b = self.plan[3]
        if got[:1] != b"L" or len(got) != 17 + 2 * ((b + 7) // 8):
            return False
        bits = [int(x) for byte in bytes.fromhex(got[17:].decode()) for x in f"{byte:08b}"]
        return not any(bits[b:]) and self.receiver.is_best(int(got[1:17], 16), bits[:b])


# how a line about the longest begins and goes on, and of what a huge one is
STARTS = [b"S", b"S", b"P07", b"H", b"L"]
FILLS = [b"0", b"1", b"0", b"A", b"g"]
HUGE = b"S0\xff\0"


def hexed(*fields):
    return b"".join(b"%0*X" % (2 * width, value) for value, width in fields)


def plan_line(r):
    p = r.randint(1, 12)
    m = r.randint(1, 8) if r.random() < 0.8 else r.randint(1, 33)
    top = 40 if r.random() < 0.9 else 270
    b = p * r.randint(max(1, 9 // p), max(1, top // p)) if r.random() < 0.95 else r.randint(0, 400)
    n = b // p * m
    q = r.choice([1, 2, 3, 4, 5, 6, 8])
    sizes = [f for f in range(1, 1 + n // q) if n % (q * f) == 0] or [1]
    steps = [i for i in range(1, 1 + n) if gcd(i, n) == 1] or [1]
    fields = [r.choice([7, 7, 9, 9, 8]), p, m]
    tail = [(b, 3), (q, 1), (r.choice(sizes), 2), (r.choice(steps), 3)]
    if r.random() < 0.2:
        tail[r.randrange(4)] = (r.randint(0, 255), tail[r.randrange(4)][1])
        tail = [(v % 256 ** w, w) for (v, _), (_, w) in zip(tail, [(0, 3), (0, 1), (0, 2), (0, 3)])]
    entries = [r.randrange(2 * p) if r.random() < 0.99 else r.randrange(30) for _ in range(m)]
    return b"P" + hexed(*[(x, 1) for x in fields + entries], *tail)


def good_line(r, bench):
    plan = bench.plan
    kind = r.choices("PSHVCL", [1, 2, 40, 20, 8, 1])[0]
    if plan is None or kind == "P":
        return plan_line(r)
    q, f, n = plan[4], plan[5], plan[7]
    if bench.receiver is None or kind == "S":
        top = 1 << max(q, 3)
        return b"S" + hexed(*[(r.randrange(top), 1) for _ in range(f + r.randint(-1, 3) if r.random() < 0.2 else f)])
    if kind == "H":
        top = 8 if q <= 3 else 1 << q
        return b"H" + hexed((r.randint(0, n // q), 3), (r.randrange(top) if r.random() < 0.95 else r.randrange(256), 1), (r.choice([0, 1, 5, 32767, 32768, r.randrange(65536)]), 2))
    if kind == "V":
        return b"V" + hexed((r.randint(0, n), 3), (r.choice([0, 1, 32767, 32768, 32769, 65535, r.randrange(65536)]), 2))
    if kind == "C":
        return b"C" + hexed((r.randint(0, n // q), 3))
    return b"L"


def lines_for(r, count, bench):
    """The lines of one run, and the answers that a bench gives by its rules."""
    lines = []
    for _ in range(count):
        line = good_line(r, bench)
        if r.random() < 0.15:
            line = damaged_line(r, line, STARTS, FILLS, HUGE)
        lines.append(line)
        bench.answer(line, 0)
    return lines


def check_run(lines, last_feed):
    """Runs the bench on these lines and judges every answer; counts lines, looks and refusals, and tells the resident size."""
    asked = lines if last_feed or not lines or lines[-1] else lines[:-1]
    asked = asked[:65535]
    front = lines[: max(0, len(asked) - 1)]
    rest = b"\n".join(lines[len(front) :]) + (b"\n" if last_feed and lines else b"")
    run = Run("bench", [], b"".join(line + b"\n" for line in front), rest)
    answers = run.stdout.split(b"\n")
    if run.returncode != 0 or answers[-1] != b"" or len(answers) - 1 != len(asked):
        sys.exit(f"status {run.returncode}, {len(answers) - 1} answers to {len(asked)} lines")
    bench, looks = Bench(), 0
    for number, (line, got) in enumerate(zip(asked, answers), 1):
        if not bench.judged(line, number, got):
            sys.exit(f"line {number}: {line[:100]!r} got {got!r}")
        looks += got[:1] == b"L"
    return len(asked), looks, sum(a[:1] == b"R" for a in answers), run.peak


# inputs of odd shape: nothing, empty lines, one line of 64 MiB, more lines than are read
SHAPES = [
    [],
    [b""],
    [b"", b"", b""],
    [b"\r"],
    [b"\0" * 3],
    [b"L"] * 65535,
    [b""] * 65537,
    [b"\0" * (1 << 26)],
    [b"S" + b"0" * (1 << 26), b"L"],
    [b"\xff"] * 70000,
]


def fuzz(count, seed):
    r = random.Random(seed)
    for lines in SHAPES:
        for feed in (True, False):
            told(lines, check_run(lines, feed))
    runs, kinds, sizes = [], Counter(), [1, 2, 1000, 65535, 65536, 70000]
    while sum(done for done, _, _, _ in runs) < count:
        size = sizes.pop(0) if sizes else r.choice([1, 7, 500, 3000, 65534, 65535, 65536, 70000])
        lines = lines_for(r, size, Bench())
        runs.append(check_run(lines, r.random() < 0.5))
        kinds += kinds_of(lines)
        told(lines, runs[-1])
    total, looks, refused, _ = map(sum, zip(*runs))
    peaks = [peak for _, _, _, peak in runs]
    print(f"{len(runs)} runs, {total} lines, {looks} looks, {refused} refused: every answer as the rules say; from {min(peaks)} to {max(peaks)} KiB; of the lines {dict(kinds)}")


def told(lines, outcome):
    longest = max(map(len, lines), default=0)
    done, looks, refused, peak = outcome
    print(f"{len(lines)} lines, the longest of {longest} characters: {done} answers, {looks} looks, {refused} refused; {peak} KiB", flush=True)
