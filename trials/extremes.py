"""Texts at the edges of what is read, and far beyond: (name, text) pairs, the same at every run."""

import itertools

import legal

RULE = b"(rule (not (mark 5)))\n"
OPEN = b"(open 1 ())\n"
LONGEST = 60000


def nested(depth, word=b"not", leaf=b"(by 0)"):
    """The bracket of the rule counts as one; an operator of two formulas has the short one first."""
    level = b"(%s (by 0) " % word if word in (b"and", b"or", b"implies", b"since") else b"(%s " % word
    return OPEN + b"(rule " + level * (depth - 2) + leaf + b")" * (depth - 1) + b"\n"


def nesting():
    for depth in (2, 14, 15, 16, 17, 18, 1000, 9000, 20000):
        for word in (b"not", b"before", b"or", b"implies", b"since"):
            yield "nested %d deep by %s" % (depth, word.decode()), nested(depth, word)
        yield "nested %d deep, unclosed" % depth, nested(depth)[: len(OPEN) + 6 + 5 * (depth - 2)]
    for depth in (15, 16, 17):
        yield "nested %d deep with a mark" % depth, nested(depth, leaf=b"(mark 31)")
    for text in (b"(", b"(open 1 (", OPEN + b"(rule ", b"(open "):
        for n in (15, 16, 17, 1000, 20000):
            yield "%d brackets behind %d bytes" % (n, len(text)), text + b"(" * n
    yield "20000 closing brackets", b")" * 20000
    yield "20000 closing brackets behind a legal text", OPEN + RULE + b")" * 20000


def with_values(length):
    """A legal text of so many bytes with about 30,000 starting values."""
    head, tail = b"(open 1 (", b"))\n" + RULE
    room = length - len(head) - len(tail)
    first = b"10" if room % 2 == 0 else b"1"
    return head + first + b" 1" * ((room - len(first)) // 2) + tail


def with_events(length):
    """A legal text of so many bytes with about 4,600 events; starting values that nobody reads take up the slack."""
    count, slack = divmod(length - len(b"(open 8 (0 1))\n" + RULE), len(b"(read 0 0 0)\n"))
    opening = b"(open 8 (0 1%s%s))\n" % (b"1" * (slack % 2), b" 0" * (slack // 2))
    return opening + b"".join(b"(read %d 0 0)\n" % (i % 8) for i in range(count)) + RULE


def lengths():
    for length in (59998, 59999, LONGEST, LONGEST + 1, 60002, 65536, 1000000):
        yield "%d bytes of starting values" % length, with_values(length)
        yield "%d bytes of events" % length, with_events(length)
        yield "%d bytes of x" % length, b"x" * length
        yield "%d blanks" % length, b" " * length
        yield "%d line ends" % length, b"\n" * length
        yield "%d NULs" % length, b"\0" * length
        yield "a legal text, then %d bytes in all" % length, (OPEN + RULE).ljust(length, b"\n")
        yield "one number of %d digits" % (length - 6), b"(open " + b"1" * (length - 6)
    yield "30000 starting values, too long", b"(open 1 (0%s))\n" % (b" 0" * 29999) + RULE
    yield "29976 starting values", b"(open 1 (0%s))\n" % (b" 0" * 29975) + RULE
    for count in (31, 32, 33):
        yield "%d starting values" % count, b"(open 1 (0%s))\n" % (b" 0" * (count - 1)) + RULE
    yield "4600 events", b"(open 8 (0))\n" + b"".join(b"(read %d 0 0)\n" % (i % 8) for i in range(4600)) + RULE
    yield "4600 events of one thread", b"(open 1 (0))\n" + b"(read 0 0 0)\n" * 4600 + RULE
    for count in (254, 255, 256):
        yield "%d events of one thread" % count, b"(open 1 (0))\n" + b"(read 0 0 0)\n" * count + RULE
    for count in (1023, 1024, 1025):
        yield "%d events" % count, b"(open 5 (0))\n" + b"".join(b"(read %d 0 0)\n(write %d 0 0)\n" % (i % 5, i % 5) for i in range((count + 1) // 2))[: 27 * (count // 2) + 13 * (count % 2)] + RULE


def tree(size):
    """A formula with so many subformulas."""
    if size == 1:
        return b"(by 1)"
    if size == 2:
        return b"(not (by 1))"
    left = (size - 1) // 2
    return b"(or %s %s)" % (tree(left), tree(size - 1 - left))


def parts():
    for size in (59, 60, 61, 62, 127, 1000, 4000):
        yield "%d subformulas" % size, b"(open 2 ())\n(internal 1 0 0)\n(internal 0 5 0)\n(rule %s)\n" % tree(size)
        yield "%d subformulas, the first at fault" % size, b"(open 2 ())\n(rule (and (by 8) %s))\n" % tree(size - 2)
        yield "%d subformulas, the last at fault" % size, b"(open 2 ())\n(rule (and %s (mark 32)))\n" % tree(size - 2)


def faults():
    """One text for each number that can come."""
    for name, text in {
        "thread count 0": b"(open 0 ())\n" + RULE,
        "thread count 9": b"(open 9 ())\n" + RULE,
        "thread 1 of 1": OPEN + b"(internal 1 0 0)\n" + RULE,
        "label 32": OPEN + b"(internal 0 32 0)\n" + RULE,
        "a value that was not read": b"(open 1 (3))\n(read 0 0 4)\n" + RULE,
        "a lock that is held": OPEN + b"(acquire 0 0)\n(acquire 0 0)\n" + RULE,
        "a lock that is free": OPEN + b"(release 0 0)\n" + RULE,
        "a variable of the rule": OPEN + b"(rule (eq 0 0))\n",
        "a label of the rule": OPEN + b"(rule (mark 32))\n",
        "a thread of the rule": OPEN + b"(rule (by 8))\n",
        "a large number": b"(open 256 ())\n" + RULE,
    }.items():
        yield name, text


def independent(counts, rule="(not (mark 4))"):
    """Threads with so many internal events each, as the rounds of a race."""
    left, actions = list(counts), []
    while any(left):
        for t in range(len(left)):
            if left[t]:
                left[t] -= 1
                actions.append((t, 0, 5, 0))
    return legal.text(len(counts), [], actions, rule)


def after_one(first, second):
    """Thread 1 begins behind thread 0's first event, so that there are first * (second + 1) + 1 cuts."""
    actions = [(0, 2, 0, 1)] + [(0, 0, 5, 0)] * (first - 1) + [(1, 1, 0, 1)] + [(1, 0, 5, 0)] * (second - 1)
    return legal.text(2, [0], actions, "(not (mark 4))")


# Its code tells by which thread the latest event was, so that a cut stands with several codes.
LAST_BY_EACH = "(or (or (or (by 0) (by 1)) (or (by 2) (by 3))) (or (or (by 4) (by 5)) (or (by 6) (by 7))))"


def work():
    """As many pairs as there are search rows, one more, and far more; with eight threads and with 60 subformulas."""
    for counts in ((31, 63), (7, 255), (15, 127), (1, 1, 1, 1, 1, 1, 1, 15), (3, 3, 3, 3, 1, 1, 1), (1, 1, 1, 1, 1, 1, 3, 7), (1, 3, 1, 3, 1, 3, 1, 1)):
        yield "2048 pairs by %s" % (counts,), independent(counts)
    yield "2048 pairs behind one event", after_one(23, 88)
    yield "2049 pairs behind one event", after_one(32, 63)
    for counts in ((255,), (255, 255), (255, 255, 255, 255), (128,) * 8, (4,) * 8, (2,) * 8, (1,) * 8, (1, 1, 1, 1, 1, 1, 1, 16), (12, 12, 12), (127, 127, 127, 127, 127, 127, 127, 135)):
        for rule in ("(not (mark 4))", "(not (mark 5))", LAST_BY_EACH, "(not %s)" % tree(59).decode(), "(always (not %s))" % tree(58).decode()):
            yield "%s internal events, rule of %d bytes" % (counts, len(rule)), independent(counts, rule)
    for t in (1, 2, 7, 8):
        writes = [(t2, 2, 0, t2) for t2 in range(t)] * 8
        yield "%d threads that write one variable" % t, legal.text(t, [0], writes, "(lt 0 7)")
        locks = [(t2, kind, 0, 0) for t2 in range(t) for kind in (3, 4)] * 3
        yield "%d threads that take one lock" % t, legal.text(t, [], locks, "(implies (by 0) (once (by 7)))")
        reads = [(t2, 1, 0, 0) for t2 in range(t)] * 2 + [(0, 2, 0, 1)]
        yield "%d threads that read the starting value" % t, legal.text(t, [0], reads, "(implies (eq 0 1) (once (by 7)))")


def prefixes():
    """Every beginning of some legal texts."""
    texts = (
        b"(open 2 (0 -1))\n(write 0 0 7)\n(acquire 1 3)\n(rule (implies (gt 1 0) (once (gt 0 0))))\n",
        b"(open 3 ())\n(internal 2 31 -2147483648)\n(acquire 0 15)\n(release 0 15)\n(rule (since (not (by 2)) (and (mark 31) (before (or (by 0) (by 1))))))\n",
        b"(open 8 (10 2147483647 0))\n(read 7 0 10)\n(write 1 1 -9)\n(read 0 1 -9)\n(rule (always (or (eq 0 10) (lt 1 -2147483648))))\n",
        OPEN + RULE,
        nested(16, b"always"),
    )
    for k, text in enumerate(texts):
        for i in range(len(text)):
            yield "the first %d bytes of text %d" % (i, k), text[:i]
            yield "the first %d bytes of text %d and a line end" % (i, k), text[:i] + b"\n"


def empties():
    yield "nothing", b""
    for byte in range(256):
        yield "byte %d alone" % byte, bytes([byte])
    yield "two texts", (OPEN + RULE) * 2
    yield "a mark of byte order", b"\xef\xbb\xbf" + OPEN + RULE


SORTS = {
    "nesting": nesting,
    "lengths": lengths,
    "numbers of subformulas": parts,
    "each number": faults,
    "largest work": work,
    "every prefix": prefixes,
    "single bytes": empties,
}


def all_texts():
    return itertools.chain.from_iterable(((sort, name, text) for name, text in made()) for sort, made in SORTS.items())
