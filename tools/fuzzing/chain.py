"""Feeds chain with what is made up, and judges what it does."""

import os
import random
import re
import subprocess
import sys
import tempfile
import time
from collections import Counter

from fuzzing.account import needed_width, register_values
from fuzzing.laboratory import ROWS, Chain, TooLong, plan_of, table_values
from fuzzing.lines import kinds_of
from fuzzing.made_up import COPIES, FILES, INPUTS, LINES, ODD, ORDERS, OTHERS, OWN, SHORT, Heard
from fuzzing.made_up import another, bad_table, bits_text, good_table, row_words
from fuzzing.programs import Run, carried_out, command, state_of
from fuzzing.words import damaged_words

LONG = [(3, 9, 3), (48, 12, 3)]
HUGE = 1 << 26


# inputs of odd shape
SHAPES = [
    [],
    [b""],
    [b"", b"", b""],
    [b"\r"],
    [b"\0" * 3],
    [b"look"] * 65537,
    [b""] * 70000,
    [b"\xff"] * 70000,
    [b"\0" * HUGE],
    [b" " * HUGE],
    [b"#" * HUGE, b"look"],
    [b"0 5 1" + b"0" * HUGE, b"0 5 1"],
]

def ended(lines, feed):
    return b"\n".join(lines) + (b"\n" if feed and lines else b"")


def received(words, lines, feed, sent=None):
    """Runs chain receive over lines, and judges each answer; looks, refusals and the resident size."""
    text = ended(lines, feed)
    run, says = Run("chain", words, text), Chain(words, text)
    if says.reception is not None:
        says.reception.sent = sent
    fault = says.wrong(run)
    if fault is not None:
        written("/tmp/fuzz_chain.text", text)
        sys.exit(f"{words!r} over {len(lines)} lines (/tmp/fuzz_chain.text): {fault!r}")
    return Counter(lines=len(lines), looks=says.reception.looks, refused=says.reception.refused), run.peak


def looks_of(plan, size):
    """How many of so many lines are looks: this account follows 8 million windows in a second or two, and all looks in about 40."""
    windows = plan[3] << 2 * plan[0]
    return min(0.02, 300 / size if windows > 45 << 18 else 200e6 / windows / size)


def fuzz_long(r):
    """A long row and the longest: looks of their blocks, which take long, are announced, and the memory is as long as the row."""
    for row in LONG:
        heard = Heard(r, plan_of(row, 7), register_values(needed_width(ROWS[row][1]), ROWS[row][2]), 0)
        lines = [heard.good(r) for _ in range(5000)] + [b"look"]
        told(lines, *received([b"receive", *row_words(row, 7)], lines, True, heard.block))
        judged([b"send", *row_words(row, 9), b"--random", b"1", b"5069"])


def fuzz_lines(r, count):
    for lines in SHAPES:
        for feed in (True, False):
            told(lines, *received([b"receive", b"3", b"1", b"0", b"7"], lines, feed))
    total, kinds, peaks, sizes = Counter(), Counter(), [], [1, 2, 1000, 65535, 70000]
    while total["lines"] < count:
        size = sizes.pop(0) if sizes else r.choice([1, 7, 500, 3000, 3000])
        words, plan, table = reception_for(r, size)
        heard = Heard(r, plan, table, looks_of(plan, size))
        makers, weights = zip(*LINES)
        lines = [make(heard, r) for make in r.choices(makers, weights, k=size)]
        done, peak = received(words, lines, r.random() < 0.5, heard.block)
        told(lines, done, peak)
        total, peaks = total + done + Counter(runs=1), peaks + [peak]
        kinds += kinds_of(lines)
    print(f"receive: {dict(total)}, every answer as the rules say; from {min(peaks)} to {max(peaks)} KiB; of the lines {dict(kinds)}", flush=True)


def reception_for(r, size):
    """The words of a reception, its plan and its scrambler's values: a short row for many lines."""
    row = r.choice(SHORT[:6] if size > 3000 else SHORT + OTHERS)
    plan = plan_of(row, r.choice([7, 7, 9]) if row in [(3, 1, 0), *OTHERS] else 7)
    words = [b"receive", *row_words(row, plan[0])]
    kind = r.choice([None, b"total", b"worst", b"count", b"count"])
    words += [b"--score", kind] if kind else []
    if r.random() < 0.5:
        return words, plan, register_values(needed_width(plan[4]), plan[5])
    text = good_table(r, plan)
    written("own.txt", text)
    return words + [b"--table", b"own.txt"], plan, table_values(text)


def told(lines, done, peak):
    longest = max(map(len, lines), default=0)
    print(f"{len(lines)} lines, the longest of {longest} characters: {done['looks']} looks, {done['refused']} refused; {peak} KiB", flush=True)


def written(name, text):
    with open(name, "wb") as file:
        file.write(text)


def judged(words, text=b"", most=1 << 62):
    """What chain says of these words and this text by its rules, once it is what the program says and does."""
    says = Chain(words, text, most)
    fault = says.wrong(carried_out("chain", words, text))
    if fault is not None:
        written("/tmp/fuzz_chain.text", text)
        sys.exit(f"{words!r} with /tmp/fuzz_chain.text: {fault!r}")
    if says.copy not in [None, *FILES]:
        os.unlink(says.copy)
    return says


def outcome(says):
    """How a run ended, in the words of its message without what is its own."""
    if not says.stop:
        return "carried out"
    message = says.stop.message
    if b"(os error" in message:
        return message.rpartition(b": ")[2].decode()
    if message.startswith(b"refused"):
        return message.partition(b":")[0].decode()
    return re.sub(rb"\d+", b"N", re.sub(rb"'.'|the byte \d+", b"X", message)).decode()


def fuzz_texts(r, count):
    """Texts of bits to send, with copies and with tables, good and bad."""
    outcomes, blocks = Counter(), 0
    for _ in range(count):
        row = r.choice(SHORT + SHORT + OTHERS)
        plan = plan_of(row, r.choice([7, 9]))
        words = [b"send", *row_words(row, plan[0])]
        if r.random() < 0.4:
            written("own.txt", r.choice([good_table, bad_table])(r, plan))
            words += [b"--table", b"own.txt"]
        words += [b"--copy", b"copy.txt"] * r.randrange(2)
        words += [b"--random", b"%d" % r.randrange(4), b"%d" % r.randrange(1 << 64)] * (r.random() < 0.1)
        says = judged(words, bits_text(r, plan[3]))
        outcomes, blocks = outcomes + Counter([outcome(says)]), blocks + says.output.count(b"#")
    print(f"send: {count} texts, {blocks} blocks: {dict(outcomes)}", flush=True)


def fuzz_pairs(r, count):
    """Pairs of texts to count."""
    outcomes = Counter()
    for _ in range(count):
        sent = bits_text(r, r.choice([1, 9, 24, 136]))
        written("sent.bits", sent)
        written("shown.bits", r.choice([another, another, another, lambda r, text: bits_text(r, 24)])(r, sent))
        says = judged([b"count", b"sent.bits", b"shown.bits"])
        outcomes[outcome(says)] += 1
        outcomes["with a remark"] += says.output.count(b"\n") > 2
    print(f"count: {count} pairs: {dict(outcomes)}", flush=True)


def fuzz_sizes():
    """Texts of many lines and of one huge line, with the resident size; a block to count is kept in memory, all else is not."""
    block = b"011010011001011001101001\n"
    texts = [(b"a block", block), (b"70,000 lines of a digit", b"1\n" * 69984 + b"\n" * 16), (b"3,000 blocks in a line", block[:-1] * 3000)]
    texts += [(b"a comment of 64 MiB", b"#" * HUGE + b"\n" + block), (b"64 MiB of white space", b" " * HUGE + block[:-1])]
    for name, text in texts:
        for words in ([b"send", b"3", b"1", b"0", b"7", b"--copy", b"copy.txt"], [b"count", b"sent.bits", b"shown.bits"]):
            written("sent.bits", text)
            written("shown.bits", block * 70000)
            says = Chain(words, text)
            run = Run("chain", [b"/dev/stdin" if word == b"sent.bits" else word for word in words], text)
            if says.wrong(run) is not None:
                sys.exit(f"{words!r}, {name!r}: {says.wrong(run)!r}")
            print(f"{words[0].decode()}, {name.decode()}: {run.peak} KiB", flush=True)
    for blocks in (40, 3000):
        print(f"send, {blocks} drawn blocks: {resident_of_drawn(blocks)} KiB", flush=True)


def resident_of_drawn(blocks):
    """The greatest resident size once drawn blocks are sent but for what a pipe holds."""
    words = [b"send", b"24", b"1", b"0", b"7", b"--random", b"%d" % blocks, b"5069"]
    says = Chain(words, b"")
    run = subprocess.Popen(command("chain", words), stdout=subprocess.PIPE)
    came = run.stdout.read(len(says.output) - 150000)
    while state_of(run)[0] == "R":
        time.sleep(0.001)
    size = state_of(run)[1]
    came += run.stdout.read()
    if came != says.output or run.wait() != 0:
        sys.exit(f"{words!r}: another output, or status {run.returncode}")
    return size


def laid():
    """Lays the files that words name, and takes all others away."""
    for name in os.listdir(b"."):
        if name not in FILES and name != b"folder":
            os.unlink(name)
    for name, text in FILES.items():
        written(name, text)


def is_safe(words):
    """Whether every word can be given, and nothing outside this folder can be written."""
    copies = [word for option, word in zip(words, words[1:]) if option == b"--copy"]
    return b"\0" not in b"".join(words) and not any(b"/" in word for word in copies if word not in COPIES)


def fuzz_words(r, count):
    """Words of all five orders, good and damaged."""
    os.mkdir("folder")
    laid()
    makers, weights = zip(*ORDERS)
    outcomes, orders = Counter(), Counter()
    while outcomes.total() < count:
        words = r.choices(makers, weights)[0](r)
        if r.random() < 0.6:
            words = damaged_words(r, words, OWN, ODD)
        if not is_safe(words):
            continue
        try:
            says = judged(words, r.choice(INPUTS), 5000)
        except TooLong:
            continue
        if sorted(os.listdir(b".")) != sorted([*FILES, b"folder"]):
            sys.exit(f"{words!r} leaves {set(os.listdir(b'.')) ^ set(FILES)}")
        if b"--copy" in words or b"--random" in words:
            laid()
        outcomes[outcome(says)] += 1
        orders[words[0] if not says.stop else "refused"] += 1
    print(f"{count} lists of words: {dict(orders)}: {dict(outcomes)}", flush=True)


def fuzz(count, seed):
    r = random.Random(seed)
    with tempfile.TemporaryDirectory() as folder:
        os.chdir(folder)
        fuzz_sizes()
        fuzz_long(r)
        fuzz_texts(r, count // 20)
        fuzz_pairs(r, count // 20)
        fuzz_words(r, count // 4)
        fuzz_lines(r, count)
        os.chdir("/")
