"""The sorts of texts on which the program is run: those of extremes.py, and so many of each random sort."""

import random

import damage
import extremes
import legal


def base(rng):
    """A legal text to damage; mostly small, so that all orders of what is still legal can be listed."""
    return legal.middling(rng) if rng.random() < 0.05 else legal.small(rng)


def damaged(way):
    return lambda rng: way(rng, base(rng))


# How many runs for every 100 that are asked for, and how a text is made.
RANDOM = {
    "legal, at most 7 events": (20, legal.small),
    "legal, rule kept by the order seen": (10, legal.kept),
    "legal, 8 to 60 events": (6, legal.middling),
    "legal, 200 to 1,024 events": (1, legal.large),
    "legal, about 2,048 pairs or far more": (2, legal.wide),
    "byte changed": (9, damaged(damage.changed)),
    "byte inserted": (8, damaged(damage.inserted)),
    "byte deleted": (6, damaged(damage.deleted)),
    "bytes transposed": (6, damaged(damage.transposed)),
    "cut short": (3, damaged(damage.cut_short)),
    "odd number": (5, damaged(damage.number)),
    "number nudged": (6, damaged(damage.nudged)),
    "other word": (4, damaged(damage.word)),
    "line dropped": (3, damaged(damage.line_dropped)),
    "line doubled": (3, damaged(damage.line_doubled)),
    "lines exchanged": (3, damaged(damage.lines_exchanged)),
    "blanks": (3, damaged(damage.blank)),
    "CR LF, tab, NUL, bytes over 127": (3, damaged(damage.strange)),
    "event that cannot be": (3, damaged(damage.refused_event)),
    "rule that cannot be": (3, damaged(damage.refused_rule)),
    "random bytes": (1, damage.random_bytes),
    "random bytes of the format": (1, damage.random_letters),
    "random words, numbers and brackets": (1, damage.random_tokens),
}


def feeding(rng):
    """How the text comes in: from a file, or through a pipe in pieces of so many bytes."""
    return rng.choice((1, 7, 512, 4096)) if rng.random() < 0.1 else "file"


def made(seed, sort, number):
    """The text of a random sort with this number, and how it comes in."""
    rng = random.Random("%s %s %d" % (seed, sort, number))
    return RANDOM[sort][1](rng), feeding(rng)


def of_one_sort(seed, sort, runs):
    return ((sort, number) + made(seed, sort, number) for number in range(runs))


def chosen(seed, runs):
    """(sort, number or name, text, feed): all extremes, then at least as many more as to make so many runs."""
    count = 1
    yield "standard input closed", 0, b"", "closed"
    for sort, name, text in extremes.all_texts():
        count += 1
        yield sort, name, text, "file"
    for sort, (share, _) in RANDOM.items():
        yield from of_one_sort(seed, sort, -(-max(0, runs - count) * share // 100))
