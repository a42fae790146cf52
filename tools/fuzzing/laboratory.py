"""What chain does by its rules: a second account of docs/LABORATORY.md, over the rows of docs/ROWS.md and the questions of docs/REFUSALS.md."""

import os
import re
from itertools import zip_longest
from operator import add, ne

from fuzzing.account import ONE_MORE, Receiver, Refused, needed_width, register_values, transmission
from fuzzing.lines import LONGEST
from fuzzing.programs import ROOT
from fuzzing.words import number, utf_8

# white space in a text of bits, in what receive reads, and in a table
SPACE = b" \t\n\v\f\r"
WHITE = rb"[ \t\n\f\r]+"

LONG_BLOCK = 10000

A_ROW = b"a row takes four numbers: bandwidth, waveform, interleaver, constraint length"
USAGE = b"usage: chain rows\n"
# what is said of words that are no UTF-8
NO_TEXT = b"invalid data"


class TooLong(Exception):
    """More work than this account is asked to follow."""


class Stop(Exception):
    """Why chain stops, and whether the usage follows."""

    def __init__(self, message, usage=False):
        self.message, self.usage = message, usage


def page(name):
    with open(os.path.join(ROOT, "docs", name)) as text:
        return text.read()


def the_rows():
    """By bandwidth, waveform and interleaver: rate, q, F, B, N and increment."""
    rows = {}
    for bandwidth, part in re.findall(r"^### (\d+) kHz\n(.*?)(?=^### |\Z)", page("ROWS.md"), re.M | re.S):
        for line in re.findall(r"^\| \d+ \| \d.*", part, re.M):
            waveform, rate, q, f, *depths = line.replace(",", "").strip("| ").split(" | ")
            for interleaver, depth in enumerate(depths):
                _, n, b, inc = map(int, depth.split(" · "))
                rows[int(bandwidth), int(waveform), interleaver] = rate, int(q), int(f), b, n, inc
    return rows


def the_send_lists():
    """By rate and constraint length: the period and the send list."""
    lists = {}
    line = r"^\| (\d+/\d+) \| ([79, ]+) \| `[01]+` \| `[01]+` \| [^|]+ \| (\d+) \| ([\d ]+) \|$"
    for rate, lengths, period, entries in re.findall(line, page("ROWS.md"), re.M):
        for k in lengths.split(", "):
            lists[rate, int(k)] = int(period), tuple(map(int, entries.split()))
    return lists


def the_questions():
    questions = dict(re.findall(r"^\| (\d+) \| (.*?) \| `", page("REFUSALS.md"), re.M))
    questions["18"] = "Has the line one of the forms that are read, in at most 2,080 characters?"
    return {int(no): text.replace("−", "-").replace("×", "x").encode() for no, text in questions.items()}


ROWS, SEND_LISTS, QUESTIONS = the_rows(), the_send_lists(), the_questions()


def plan_of(row, k):
    if row not in ROWS:
        raise Refused(9)
    if k not in (7, 9):
        raise Refused(1)
    rate, q, f, b, n, inc = ROWS[row]
    return k, *SEND_LISTS[rate, k], b, q, f, inc, n


def drawn_bits(seed, count):
    """The highest bits of so many drawn numbers."""
    mask, state, bits = (1 << 64) - 1, seed, []
    for _ in range(count):
        state = state + 0x9E3779B97F4A7C15 & mask
        x = (state ^ state >> 30) * 0xBF58476D1CE4E5B9 & mask
        x = (x ^ x >> 27) * 0x94D049BB133111EB & mask
        bits.append((x ^ x >> 31) >> 63)
    return bits


def air_text(number, air):
    return b"# block %d\n" % number + b"".join(b"%d %d\n" % pair for pair in enumerate(air))


def lines_of_bits(text, name):
    """The digits of each line of a text, and why reading stops behind them, if it does."""
    for at, line in enumerate(text.split(b"\n"), 1):
        marks = line.partition(b"#")[0].translate(None, SPACE)
        front = re.match(rb"[01]*", marks).group()
        if front == marks:
            yield front, None
        else:
            byte = marks[len(front)]
            said = b"'%c'" % byte if 33 <= byte <= 126 else b"the byte %d" % byte
            yield front, Stop(name + b", line %d: " % at + said + b" is no bit")
            return


def blocks_in(file, name):
    """The lines of a file that have bits."""
    for front, stop in lines_of_bits(content(opened(file)), name):
        if stop:
            raise stop
        if front:
            yield front


def count_text(sent, shown):
    """What count writes of two files."""
    numbers, unequal, sent_alone, shown_alone = [0, 0, 0, 0], 0, 0, 0
    for a, b in zip_longest(blocks_in(sent, b"the first file"), blocks_in(shown, b"the second file")):
        if a is None or b is None:
            sent_alone, shown_alone = sent_alone + (b is None), shown_alone + (a is None)
            continue
        errors = sum(map(ne, a, b)) + abs(len(a) - len(b))
        numbers = list(map(add, numbers, (1, len(a), errors, errors > 0)))
        unequal += len(a) != len(b)
    remarks = [(b"of another length than was sent", unequal), (b"sent and not shown", sent_alone), (b"shown and not sent", shown_alone)]
    text = b"# blocks bits bit_errors block_errors\n%d %d %d %d\n" % tuple(numbers)
    return text + b"".join(b"# blocks %b: %d\n" % remark for remark in remarks if remark[1])


def table_values(text):
    """The values that a table's text has."""
    values = []
    for at, line in enumerate(text.split(b"\n"), 1):
        if not utf_8(line):
            raise Stop(b"stream did not contain valid UTF-8")
        for word in re.split(WHITE, line.partition(b"#")[0]):
            if word and not (re.fullmatch(rb"\+?0*[0-9]{1,3}", word) and int(word[-3:].lstrip(b"+")) <= 255):
                raise Stop(b"the table, line %d: something else than whole numbers up to 255" % at)
            if word:
                values.append(int(word[-3:]))
    return values


def rows_text():
    lines = ["# bandwidth waveform interleaver rate q frame_length B N increment"]
    lines += [" ".join(map(str, [*row, *ROWS[row]])) for row in sorted(ROWS)]
    return "".join(line + "\n" for line in lines).encode()


def plan_text(row, plan):
    k, p, entries, b, q, f, inc, n = plan
    lines = ["bandwidth %d" % row[0], "waveform %d" % row[1], "interleaver %d" % row[2], "constraint %d" % k]
    lines += ["rate " + ROWS[row][0], "q %d" % q, "frame_length %d" % f, "B %d" % b, "N %d" % n, "symbols %d" % (n // q)]
    lines += ["increment %d" % inc, "period %d" % p, "send_list " + " ".join(map(str, entries))]
    return "".join(line + "\n" for line in lines).encode()


class Reception:
    """A receiver, and what is answered to each line: a refusal, nothing, or what a look shows."""

    def __init__(self, plan, table, kind):
        if len(table) < plan[5]:
            raise Refused(11)
        self.receiver, self.known = Receiver(plan, table, kind), None
        # a block that was sent, and how many looks and refusals there were
        self.sent, self.looks, self.refused = None, 0, 0

    def is_look(self, line):
        """Carries out a line, and answers whether it shows a block."""
        if len(line) > LONGEST:
            raise Refused(18)
        words = [word for word in re.split(WHITE, line) if word]
        if not words or words[0].startswith(b"#"):
            return False
        if words == [b"look"]:
            return True
        if words[0] == b"note" and len(words) == 3:
            self.receiver.note(whole(words[1], 0, (1 << 32) - 1), whole(words[2], -32768, 32767))
        elif words[0] == b"blank" and len(words) == 2:
            self.receiver.blank(whole(words[1], 0, (1 << 32) - 1))
        elif len(words) == 3:
            self.receiver.hear(*map(whole, words, [0, 0, 0], [(1 << 32) - 1, 255, 65535]))
        else:
            raise Refused(18)
        return False

    def is_shown(self, score, block):
        """Whether a look shows this."""
        numbers = re.fullmatch(rb"# score (\d+) (\d+)" if self.receiver.kind == "count" else rb"# score (\d+)", score)
        if not numbers or len(block) != self.receiver.plan[3] or block.strip(b"01"):
            return False
        self.looks += 1
        *count, last = map(int, numbers.groups())
        score, bits = sum(count) * ONE_MORE + last, [digit - 48 for digit in block]
        if self.known and self.known[0] == self.receiver.values:
            return self.known[1:] == (score, bits)
        self.known = self.receiver.values.copy(), score, bits
        no_worse = self.sent is None or score <= self.receiver.own_score(self.sent)
        return no_worse and self.receiver.is_best(score, bits)

    def wrong(self, text, written):
        """The first line that is not answered as the rules say, or none: its number, itself and what came."""
        lines, answers = text.split(b"\n"), iter(written.split(b"\n"))
        for at, line in enumerate(lines[: len(lines) - (not lines[-1])] + [b"look"], 1):
            try:
                came = [next(answers, b""), next(answers, b"")] if self.is_look(line) else []
                right = not came or self.is_shown(*came)
            except Refused as no:
                came = [next(answers, b"")]
                right = came[0] == b"# refused %d line %d: " % (no.args[0], at) + QUESTIONS[no.args[0]]
                self.refused += 1
            if not right:
                return at, line[:100], came
        rest = list(answers)
        return None if rest == [b""] else (0, b"", rest[:3])


def whole(word, least, most):
    """The number that a word of a line writes: no leading zeros, no plus sign."""
    if not re.fullmatch(rb"0|-?[1-9][0-9]*", word) or not least <= int(word) <= most:
        raise Refused(18)
    return int(word)


def choice_of(words):
    """The row and the constraint length that four words name, and the words behind them."""
    if len(words) < 4:
        raise Stop(A_ROW, True)
    names = [b"bandwidth", b"waveform", b"interleaver", b"constraint length"]
    *row, k = [number(word, name, 0, (1 << 64) - 1) for word, name in zip(words, names)]
    return tuple(row), k, words[4:]


def settings_of(words, known):
    """What the words behind a row set, of these options."""
    settings = {}
    while words:
        option, *values = words[:3] if words[0] == b"--random" else words[:2]
        if option not in known or len(values) < (2 if option == b"--random" else 1):
            raise Stop(b"there is no such option here, or it lacks a word", True)
        if option == b"--random":
            values = [number(word, name, 0, (1 << 64) - 1) for word, name in zip(values, (b"count of blocks", b"seed"))]
        if option == b"--score" and values[0] not in (b"total", b"worst", b"count"):
            raise Stop(b"the score is none of total, worst, count", True)
        settings[option] = values if option == b"--random" else values[0]
        words = words[1 + len(values) :]
    return settings


def why(error):
    return os.strerror(error.errno).encode() + b" (os error %d)" % error.errno


def opened(name, flags=os.O_RDONLY):
    try:
        return os.open(name, flags)
    except OSError as error:
        raise Stop(name + b": " + why(error), True)


def content(file):
    try:
        with open(file, "rb", buffering=0) as text:
            return text.readall()
    except OSError as error:
        raise Stop(why(error))


class Chain:
    """What chain does with its words and its input: what it writes and copies, or the reception that judges it, and why it stops."""

    def __init__(self, words, text, most=1 << 62):
        self.text, self.most = text, most
        self.output, self.copy, self.copied, self.reception, self.stop = b"", None, b"", None, None
        try:
            self.obey(words)
        except Stop as stop:
            self.stop = stop
        except Refused as no:
            told = isinstance(no.args[0], bytes)
            self.stop = Stop(no.args[0], True) if told else Stop(b"refused %d: " % no.args[0] + QUESTIONS[no.args[0]])

    def obey(self, words):
        if not all(map(utf_8, words)):
            raise Stop(NO_TEXT)
        word, *rest = words or [b""]
        orders = {b"rows": self.rows, b"plan": self.plan, b"send": self.send, b"receive": self.receive, b"count": self.count}
        if word not in orders:
            raise Stop(b"the first word is none of rows, plan, send, receive, count", True)
        orders[word](rest)

    def rows(self, rest):
        if rest:
            raise Stop(A_ROW, True)
        self.output = rows_text()

    def plan(self, rest):
        row, k, more = choice_of(rest)
        if more:
            raise Stop(A_ROW, True)
        self.output = plan_text(row, plan_of(row, k))

    def table(self, plan, settings):
        """The values of a table, or those of the register."""
        width = needed_width(plan[4])
        if b"--table" not in settings:
            return register_values(width, plan[5])
        values = table_values(content(opened(settings[b"--table"])))
        if not 1 <= len(values) <= 4096 or max(values) >= 1 << width:
            raise Refused(10)
        return values

    def send(self, rest):
        row, k, more = choice_of(rest)
        settings = settings_of(more, [b"--random", b"--copy", b"--table"])
        plan = plan_of(row, k)
        table = self.table(plan, settings)
        self.copy = settings.get(b"--copy", b"sent.txt" if b"--random" in settings else None)
        if self.copy is not None:
            self.create()
        if len(table) < plan[5]:
            raise Refused(11)
        digits, stop = self.digits(plan, settings)
        for number, at in enumerate(range(0, len(digits) - plan[3] + 1, plan[3]), 1):
            block = digits[at : at + plan[3]]
            self.output += air_text(number, transmission(plan, table, [digit - 48 for digit in block]))
            self.copied += block + b"\n"
        if stop:
            raise stop

    def create(self):
        """Whether the copy can be created; what is created for that is taken away."""
        there = os.path.exists(self.copy)
        try:
            os.close(opened(self.copy, os.O_WRONLY | os.O_CREAT))
        except Stop:
            self.copy = None
            raise
        if not there:
            os.unlink(self.copy)

    def digits(self, plan, settings):
        """The bits that are drawn or read, and why it stops behind them, if it does."""
        if b"--random" in settings:
            blocks, seed = settings[b"--random"]
            self.work(blocks * plan[7])
            return b"".join(b"%d" % bit for bit in drawn_bits(seed, blocks * plan[3])), None
        fronts, stops = zip(*lines_of_bits(self.text, b"the input"))
        digits, left = b"".join(fronts), sum(map(len, fronts)) % plan[3]
        self.work(len(digits) // plan[3] * plan[7])
        short = Stop(b"the last block has %d bits, and a block of this row has %d" % (left, plan[3])) if left else None
        return digits, stops[-1] or short

    def receive(self, rest):
        row, k, more = choice_of(rest)
        settings = settings_of(more, [b"--score", b"--table"])
        plan = plan_of(row, k)
        table = self.table(plan, settings)
        self.work(plan[7])
        self.reception = Reception(plan, table, settings.get(b"--score", b"total").decode())

    def count(self, rest):
        if len(rest) != 2:
            raise Stop(b"count takes two files", True)
        for file in rest:
            os.close(opened(file))
        self.output = count_text(*rest)

    def work(self, symbols):
        if symbols > self.most:
            raise TooLong

    def wrong(self, run):
        """What is not as the rules say in a run, or none."""
        if self.reception is not None:
            fault = self.reception.wrong(self.text, run.stdout)
        else:
            fault = None if run.stdout == self.output else run.stdout[:1000]
        said, usage = self.says()
        if run.returncode != (self.stop is not None) or not run.stderr.startswith(said) or run.stderr[len(said) :][: len(USAGE)] != usage:
            fault = run.returncode, run.stderr
        if self.copy is not None and content(opened(self.copy)) != self.copied:
            fault = self.copy, content(opened(self.copy))[:1000]
        return fault

    def says(self):
        """What goes to standard error: a message, and how the usage begins behind it; or that looks of a long block begin."""
        if self.stop is not None:
            return b"chain: " + self.stop.message + b"\n", USAGE * self.stop.usage
        if self.reception is None or self.reception.receiver.plan[3] < LONG_BLOCK:
            return b"", b""
        return b"looking for the best block of %d bits\n" % self.reception.receiver.plan[3] * self.reception.looks, b""
