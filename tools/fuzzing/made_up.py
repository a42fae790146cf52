"""Lines, texts, tables and words for chain, made up at random: good ones and damaged ones."""

from fuzzing.account import needed_width, transmission
from fuzzing.laboratory import ROWS
from fuzzing.lines import damaged_line

# rows whose looks this account follows, the shortest block often, and others
SHORT = [(3, 1, 0), (3, 1, 0), (3, 1, 0), (3, 2, 0), (3, 3, 0), (6, 1, 0), (9, 1, 0), (3, 13, 0), (3, 6, 0), (3, 7, 0)]
OTHERS = [(3, 8, 0), (3, 9, 0), (3, 10, 0), (3, 11, 0), (3, 12, 0), (24, 1, 0), (24, 6, 0)]


def row_words(row, k):
    return [b"%d" % x for x in (*row, k)]


def drawn_from(r, some, count):
    """So many of these bytes."""
    return bytes(r.choice(some) for _ in range(count))


class Heard:
    """What a simulator knows: the plan, a block that was sent and its air; and how many of its lines are looks."""

    def __init__(self, r, plan, table, looks):
        self.plan, self.looks = plan, looks
        self.block = [r.randrange(2) for _ in range(plan[3])]
        self.air = transmission(plan, table, self.block)

    def hear(self, r):
        place = r.randrange(len(self.air))
        index = self.air[place] if r.random() < 0.8 else r.randrange(1 << needed_width(self.plan[4]))
        return b"%d %d %d" % (place, index, r.choice([0, 1, 5, 1000, 32767, r.randrange(32768)]))

    def note(self, r):
        return b"note %d %d" % (r.randrange(self.plan[7]), r.choice([0, 1, -1, 32767, -32767, r.randint(-32767, 32767)]))

    def blank(self, r):
        return b"blank %d" % r.randrange(len(self.air))

    def good(self, r):
        if r.random() < self.looks:
            return b"look"
        return r.choices([self.hear, self.note, self.blank], [70, 20, 10])[0](r)

    def comment(self, r):
        return r.choice([b"#", b"# ", b"  #", b"\t# look", b"#0 1 2"]) + drawn_from(r, b"look 0123#\xc3\xa9\0", r.randrange(30))

    def nothing(self, r):
        return drawn_from(r, b" \t\f\r", r.choice([0, 0, 1, 5]))

    def spaced(self, r):
        """A line with other bytes about its words, white space or not."""
        gaps = [b"  ", b"\t", b" \t\f ", b"\r", b" \r", b"\v", b"\0", b"\xc2\xa0", b"#", b",", b""]
        words = self.good(r).split()
        return r.choice([b"", b" ", b"\t"]) + r.choice(gaps).join(words) + r.choice([b"", b" ", b"\r", b" # noise", b"\v"])

    def odd_number(self, r):
        """A line with one number past its bounds, or written in another way."""
        words = self.good(r).split()
        at = r.randrange(len(words))
        ways = [b"0%b", b"+%b", b"-%b", b"%b.0"]
        numbers = NUMBERS + [b"%d" % self.plan[7], b"%d" % len(self.air)] + [way % words[at] for way in ways]
        words[at] = r.choice(numbers)
        return b" ".join(words)

    def other_words(self, r):
        """A line with a word more, fewer, or in another place."""
        words = self.good(r).split()
        words.insert(r.randint(0, len(words)), r.choice([b"look", b"note", b"blank", b"0", b"7", b"#", b"Look", b"end"]))
        return b" ".join(r.sample(words, r.randint(1, len(words))))

    def damaged(self, r):
        return damaged_line(r, self.good(r), STARTS, FILLS, b"0 #\xff\0")


STARTS = [b"look", b"0 1 ", b"note 0 1", b"#", b" "]
FILLS = [b" ", b" ", b"0", b"1", b"x"]
BOUNDS = [8, 255, 256, 32767, 32768, 40000, 65535, 65536, -1, -32768, -32769, (1 << 32) - 1, 1 << 32, 1 << 64, 10**400]
NUMBERS = [b"%d" % x for x in BOUNDS] + [b"-0", b"0x1", b"1e3", b"1_0"]

# how lines are made, and how often of a hundred
LINES = [
    (Heard.good, 65),
    (Heard.comment, 3),
    (Heard.nothing, 3),
    (Heard.spaced, 6),
    (Heard.odd_number, 8),
    (Heard.other_words, 3),
    (Heard.damaged, 12),
]


def good_table(r, plan):
    count = r.choice([plan[5], plan[5], r.randint(plan[5], 4096), 4096])
    return table_text(r, [b"%d" % r.randrange(1 << needed_width(plan[4])) for _ in range(count)])


def table_text(r, words):
    gaps = r.choice([[b" "], [b"\n"], [b" ", b"\t", b"\r\n", b"\n", b"\f", b" # 9 x\n"]])
    return b"".join(word + r.choice(gaps) for word in words)


VALUES = [b"255", b"256", b"-1", b"-0", b"+1", b"+", b"007", b"0000", b"1.0", b"x", b"\xd9\xa3", b"\xff", b"1\v2", b"\0", b"#", b"9" * 5000]


def bad_table(r, plan):
    """Too few values, none or too many, one too great, or something else than values."""
    width = needed_width(plan[4])
    words = [b"%d" % r.randrange(1 << width) for _ in range(r.choice([0, 1, plan[5] - 1, plan[5], 4096, 4097, 5000]))]
    for _ in range(r.randint(0, 2)):
        words.insert(r.randint(0, len(words)), r.choice(VALUES + [b"%d" % (1 << width)]))
    return table_text(r, words)


# pieces of a text of bits, and how often each comes
PIECES = [
    (lambda r, b: drawn_from(r, b"01", r.choice([1, 7, b, b, 2 * b, r.randint(1, b)])), 50),
    (lambda r, b: b"\n", 20),
    (lambda r, b: b"\r\n", 5),
    (lambda r, b: r.choice([b" ", b"\t", b"  ", b"\v\f", b"\r"]), 12),
    (lambda r, b: b"# block 1\n", 5),
    (lambda r, b: b"#" + drawn_from(r, b"01#x\xff\0 ", r.randrange(9)) + r.choice([b"\n", b"\r\n", b""]), 4),
]
STRAYS = [b"2", b"9", b"x", b"-", b"'", b"\0", b"\x7f", b"\x08", b"\x0e", b"\x1c", b"\x85", b"\xa0", b"\xff", b"\xef\xbb\xbf", b"O", b"~", b"!"]


def bits_text(r, b):
    """A text of bits; in 15 of 100 something else stands in it, and half of the others end with a whole block."""
    makers, weights = zip(*PIECES)
    pieces = [make(r, b) for make in r.choices(makers, weights, k=r.choice([0, 1, 3, 10, 40]))]
    if r.random() < 0.15:
        pieces.insert(r.randint(0, len(pieces)), r.choice(STRAYS))
    text = b"".join(pieces)
    said = sum(line.partition(b"#")[0].count(digit) for line in text.split(b"\n") for digit in (b"0", b"1"))
    return text + b"\n" + b"0" * (-said % b) if r.random() < 0.5 else text


def another(r, text):
    """The shown text of a sent one: bits turned, lines dropped, doubled or put in, other line ends."""
    lines = text.split(b"\n")
    for _ in range(r.randrange(4)):
        lines = lines or [b""]
        at, way = r.randrange(len(lines)), r.randrange(4)
        if way == 0:
            lines[at] = bytes(c ^ (c in b"01" and r.random() < 0.2) for c in lines[at])
        elif way == 1:
            lines[at : at + 1] = [lines[at]] * r.choice([0, 2])
        elif way == 2:
            lines.insert(at, r.choice([b"# score 17", b"", b"0", b"01" * 40, b"\r"]))
        else:
            lines[at] += r.choice([b"0", b" ", b"\r", b"#0"] + STRAYS[: r.choice([0, 0, 0, len(STRAYS)])])
    return b"\n".join(lines)


# the files that words name: tables for every row or for none, texts of bits, and a folder
FILES = {
    b"good.txt": b" ".join(b"%d" % (place % 8) for place in range(4096)),
    b"short.txt": b"1 2 3\n",
    b"long.txt": b"1 " * 4097,
    b"great.txt": b"8 15 16 255\n" * 1024,
    b"stray.txt": b"1 2\n3 x\n",
    b"latin.txt": b"1 2 # caf\xe9\n",
    b"empty.txt": b"",
    b"bits.txt": b"011010011001011001101001\n" * 3,
    b"others.txt": b"# score 5\n011010011001011001101000\n\n0110\n",
    b"no_bits.txt": b"0110\n2\n",
}
TABLES = [b"good.txt", b"good.txt", b"short.txt", b"long.txt", b"great.txt", b"stray.txt", b"latin.txt", b"empty.txt", b"folder", b"missing.txt", b""]
TEXTS = [b"bits.txt", b"bits.txt", b"others.txt", b"no_bits.txt", b"empty.txt", b"latin.txt", b"folder", b"missing.txt"]
COPIES = [b"copy.txt", b"copy.txt", b"sent.txt", b"folder", b"missing/copy.txt", b"", b"good.txt", b"n" * 255, b"n" * 256]
INPUTS = [b"", b"011010011001011001101001", b"0110", b"01 10\n1x", b"look", b"note 0 5\nnote 1 -5\n0 5 1\nlook\nend\n"]

# what the words of an order are, and how often each comes
ORDERS = [
    (lambda r: [b"rows"], 5),
    (lambda r: [b"plan", *good_row(r)], 15),
    (lambda r: [b"send", *good_row(r), *settings(r, [drawn, copied, tabled])], 35),
    (lambda r: [b"receive", *good_row(r), *settings(r, [scored, tabled])], 30),
    (lambda r: [b"count", r.choice(TEXTS), r.choice(TEXTS)], 15),
]
OWN = [b"--random", b"--copy", b"--table", b"--score", b"--score=worst", b"--random=1", b"--", b"-", b"--help", b"total"]
OWN += [b"rows", b"plan", b"send", b"receive", b"count", b"good.txt", b"bits.txt", b"missing.txt", b"folder"]
ODD = [b"0x10", b"7 ", b" 7", b"1e3", b"\xd9\xa3", b"24\r", b"+7", b"007", b"+", b"\xff"]


def good_row(r):
    row = r.choice(SHORT + OTHERS + [r.choice(list(ROWS))])
    if r.random() < 0.15:
        row = r.randint(0, 50), r.randint(0, 15), r.randint(0, 5)
    return row_words(row, r.choice([7, 7, 7, 7, 9, 8]))


def settings(r, makers):
    return [word for make in r.sample(makers, r.randint(0, len(makers))) for word in make(r)]


def drawn(r):
    return [b"--random", b"%d" % r.choice([0, 1, 2, 5, 1 << 63]), b"%d" % r.randrange(1 << 64)]


def copied(r):
    return [b"--copy", r.choice(COPIES)]


def tabled(r):
    return [b"--table", r.choice(TABLES)]


def scored(r):
    return [b"--score", r.choice([b"total", b"worst", b"count", b"best", b"Total", b""])]
