"""Lines that are damaged in one of nine ways, and what is told of lines."""

from collections import Counter

LONGEST = 2080

ALL_BUT_LINE_FEED = [c for c in range(256) if c != 10]


def damaged_line(r, line, starts, fills, huge):
    """A carriage return at the end, the other case, cut short, a byte exchanged, empty, binary, about the longest, huge, or doubled."""
    way = r.randrange(9)
    if way == 0:
        return line + b"\r"
    if way == 1:
        return line.swapcase()
    if way == 2:
        return line[: r.randint(0, len(line))]
    if way == 3 and line:
        at = r.randrange(len(line))
        return line[:at] + bytes([r.choice(ALL_BUT_LINE_FEED)]) + line[at + 1 :]
    if way == 4:
        return b""
    if way == 5:
        return bytes(r.choice(ALL_BUT_LINE_FEED) for _ in range(r.randint(0, 60)))
    if way == 6:
        fill = r.choice(fills)
        return r.choice(starts).ljust(r.choice([2078, 2079, 2080, 2081, 2082, 5000]), fill)
    if way == 7 and r.random() < 0.05:
        return bytes([r.choice(huge)]) * r.choice([65536, 100000, 1000000])
    return line + line


KINDS = {
    "empty": lambda line: not line,
    "with a carriage return at the end": lambda line: line.endswith(b"\r"),
    "with bytes that are no text": lambda line: any(c > 126 or c < 9 for c in line[:5000]),
    "with a number past 64 bits": lambda line: any(len(word) > 20 and word.isdigit() for word in line[:5000].split()),
    "comments": lambda line: line.lstrip(b" \t\f\r").startswith(b"#"),
    f"of {LONGEST:,} characters": lambda line: len(line) == LONGEST,
    f"of {LONGEST + 1:,} characters": lambda line: len(line) == LONGEST + 1,
    f"longer than {LONGEST + 1:,}": lambda line: len(line) > LONGEST + 1,
    "of 65,536 characters or more": lambda line: len(line) >= 65536,
}


def kinds_of(lines):
    """How many lines of each kind there are."""
    return Counter({kind: sum(map(fits, lines)) for kind, fits in KINDS.items()})
