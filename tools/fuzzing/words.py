"""Words of a command line: read, made up and damaged."""

import re

from fuzzing.account import Refused


def utf_8(word):
    try:
        return word.decode() is not None
    except UnicodeDecodeError:
        return False


def number(word, name, least, most):
    signs = rb"[+-]?" if least < 0 else rb"[+]?"
    if not re.fullmatch(signs + rb"[0-9]+", word) or len(word) > 4000 or not least <= int(word) <= most:
        raise Refused(b"the " + name + b" is not a whole number, or too great")
    return int(word)


def garbage(r, own, odd):
    """A word that is none, a number past bounds, one of a program's own, or an odd one."""
    way = r.randrange(6)
    if way == 0:
        return b""
    if way == 1:
        return bytes(r.randint(1, 255) for _ in range(r.choice([1, 5, 80, 3000])))
    if way == 2:
        return b"%d" % r.choice([-1, 256, 1 << 63, 1 << 64, 10**4000])
    if way == 3:
        return r.choice(own)
    return r.choice(odd)


def damaged_words(r, words, own, odd):
    words = list(words)
    for _ in range(r.randint(1, 3)):
        way, at = r.randrange(6), r.randint(0, len(words))
        if way == 0 or not words:
            words.insert(at, garbage(r, own, odd))
        elif way == 1:
            words[at - 1] = garbage(r, own, odd)
        elif way == 2:
            del words[at - 1]
        elif way == 3:
            words.insert(at, words[at - 1])
        elif way == 4:
            r.shuffle(words)
        else:
            word = words[at - 1]
            cut = r.randint(0, len(word))
            words[at - 1] = word[:cut] + bytes([r.randint(1, 255)]) + word[cut + r.randint(0, 1) :]
    return words
