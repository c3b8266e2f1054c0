"""Ways to damage the text of a recording, each of a random generator and a text."""

import re

FORMAT = b"()\n -0123456789abcdefghilmnopqrstuvwy"
STRANGE = (b"\0", b"\t", b"\r", b"\x0b", b"\x7f", b"\x80", b"\xc3\xa9", b"\xff", b"\xef\xbb\xbf", b"\xc2\xa0", b"\x1a")
WORDS = (b"open", b"read", b"write", b"internal", b"acquire", b"release", b"rule", b"eq", b"lt", b"gt", b"mark", b"by", b"not", b"and", b"or", b"implies", b"before", b"once", b"always", b"since")
ODD_NUMBERS = (b"0", b"1", b"7", b"8", b"9", b"15", b"16", b"31", b"32", b"255", b"256", b"999", b"2147483647", b"2147483648", b"4294967295", b"4294967296", b"9999999999", b"10000000000", b"12345678901", b"99999999999999999999999", b"-1", b"-0", b"-2147483648", b"-2147483649", b"-9999999999", b"-12345678901", b"--1", b"-", b"+1", b"00", b"01", b"-01", b"1.0", b"1e3", b"0x1", b"")


def byte(rng):
    return bytes([rng.choice(FORMAT) if rng.random() < 0.7 else rng.randrange(256)])


def changed(rng, text):
    i = rng.randrange(len(text))
    return text[:i] + byte(rng) + text[i + 1 :]


def inserted(rng, text):
    i = rng.randint(0, len(text))
    return text[:i] + byte(rng) + text[i:]


def deleted(rng, text):
    i = rng.randrange(len(text))
    return text[:i] + text[i + 1 :]


def transposed(rng, text):
    i = rng.randrange(len(text) - 1)
    return text[:i] + text[i + 1 : i + 2] + text[i : i + 1] + text[i + 2 :]


def cut_short(rng, text):
    return text[: rng.randrange(len(text))]


def replaced(rng, text, pattern, pieces):
    """One place that has the pattern gets one of the pieces."""
    spans = [m.span() for m in re.finditer(pattern, text)]
    start, end = rng.choice(spans)
    return text[:start] + rng.choice(pieces) + text[end:]


def number(rng, text):
    return replaced(rng, text, rb"-?[0-9]+", ODD_NUMBERS)


def nudged(rng, text):
    """A number that is a little larger or smaller: what it says may be refused, but its text is legal."""
    m = rng.choice(list(re.finditer(rb"[0-9]+", text)))
    value = max(0, int(m.group()) + rng.choice((-1, 1, 1, 2, 7, 30, 250)))
    return text[: m.start()] + b"%d" % value + text[m.end() :]


def word(rng, text):
    return replaced(rng, text, rb"[a-z]+", WORDS + (b"", b"Read", b"OPEN", b"nott"))


def split(text):
    return text.splitlines(keepends=True)


def line_dropped(rng, text):
    lines = split(text)
    del lines[rng.randrange(len(lines))]
    return b"".join(lines)


def line_doubled(rng, text):
    lines = split(text)
    i = rng.randrange(len(lines))
    return b"".join(lines[: i + 1] + lines[i:])


def lines_exchanged(rng, text):
    """Events more often than the opening and the rule, since their order decides what is refused."""
    lines = split(text)
    inner = range(1, len(lines) - 1) if len(lines) > 3 and rng.random() < 0.8 else range(len(lines))
    i, j = rng.sample(inner, 2)
    lines[i], lines[j] = lines[j], lines[i]
    return b"".join(lines)


def blank(rng, text):
    """A doubled blank, a blank at an edge, or none where one has to stand."""
    return replaced(rng, text, rb" ", (b"  ", b"", b" \t", b"\n", b"( ", b" )")) if rng.random() < 0.7 else replaced(rng, text, rb"[()\n]", (b"( ", b" )", b") ", b" \n", b"\n ", b"\n\n"))


def strange(rng, text):
    """CR LF throughout, or a control byte or one over 127 in some place."""
    if rng.random() < 0.2:
        return text.replace(b"\n", b"\r\n")
    i = rng.randint(0, len(text))
    return text[:i] + rng.choice(STRANGE) + text[i + rng.randint(0, 1) :]


def refused_event(rng, text):
    """One more event line that mostly cannot be noted where it stands."""
    lines = split(text)
    thread, subject = rng.choice((0, 1, 7, 8, 255)), rng.choice((0, 1, 15, 16, 31, 32, 255))
    event = rng.choice((b"(read %d %d 77)\n", b"(write %d %d 1)\n", b"(acquire %d %d)\n", b"(release %d %d)\n", b"(internal %d %d 0)\n")) % (thread, subject)
    lines.insert(rng.randint(1, len(lines) - 1), event)
    return b"".join(lines)


def refused_rule(rng, text):
    """A rule that names what there is not, or has too many parts, in some place of the rule."""
    lines = split(text)
    odd = rng.choice((b"(eq 32 0)", b"(lt 255 1)", b"(gt 9 -1)", b"(mark 32)", b"(mark 255)", b"(by 8)", b"(by 255)"))
    body = lines[-1][len(b"(rule ") : -2]
    parts = [odd, body] if rng.random() < 0.5 else [body, odd]
    rule = b"(or %s %s)" % tuple(parts)
    while rng.random() < 0.3:
        rule = b"(and %s %s)" % (rule, rng.choice((rule, b"(by 9)", b"(mark 99)")))
    return b"".join(lines[:-1]) + b"(rule %s)\n" % rule


def random_bytes(rng):
    return rng.randbytes(rng.choice((1, 2, 10, 100, 1000)))


def random_letters(rng):
    return bytes(rng.choice(FORMAT) for _ in range(rng.choice((1, 2, 10, 100, 1000))))


def random_tokens(rng):
    """Words, numbers and brackets in no order, behind an opening that is legal as often as not."""
    pieces = WORDS + (b"(", b")", b"(", b")", b" ", b"\n", b"0", b"1", b"-1", b"256")
    soup = b"".join(rng.choice(pieces) + rng.choice((b"", b" ")) for _ in range(rng.randrange(60)))
    return rng.choice((b"", b"(open 2 (0 1))\n", b"(open 1 ())\n(rule (")) + soup
