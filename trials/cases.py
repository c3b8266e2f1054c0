"""Writes crates/trials/stdin, the cases, and crates/trials/stdout, what the reference reading says of each.

A case is a line `ROWS LENGTH NAME`, then LENGTH bytes of text and a byte 10. Run it as `python3 trials/cases.py`.
"""

import itertools
import os

from enumerator import digests, runs
from reference import Fault, answer, note, predict, read

RULE = b"(rule (not (mark 5)))\n"
CASES = []


def case(name, text, rows=1024):
    CASES.append((name, rows, text))


def whole(opening, *lines, rule=RULE):
    return b"".join(line.encode() + b"\n" for line in (opening,) + lines) + rule


def recordings():
    case("two-writes", whole("(open 2 (0 0))", "(write 0 0 7)", "(write 1 1 9)"))
    case("no-events", whole("(open 1 ())"))
    case("every-kind", whole("(open 8 (-2147483648 2147483647))", "(internal 7 31 -5)", "(read 0 0 -2147483648)", "(read 1 1 2147483647)", "(write 2 0 1)", "(read 3 0 1)", "(acquire 4 15)", "(release 4 15)", "(acquire 5 15)"))
    for operator in ("not", "before", "once", "always"):
        case("rule-" + operator, whole("(open 1 (0))", rule=b"(rule (%s (eq 0 -1)))\n" % operator.encode()))
    for operator in ("and", "or", "implies", "since"):
        case("rule-" + operator, whole("(open 1 (0))", rule=b"(rule (%s (lt 0 1) (gt 0 2)))\n" % operator.encode()))


def rules():
    line = "(write 0 0 7)", "(write 1 1 9)", "(internal 1 5 0)"
    for rule in ("(eq 2 0)", "(and (mark 31) (lt 5 0))", "(mark 32)", "(or (mark 31) (mark 255))", "(by 7)", "(by 8)", "(since (by 8) (mark 32))", "(not (gt 255 0))", "(before (mark 32))"):
        case("rule " + rule, whole("(open 2 (0 0))", *line, rule=b"(rule %s)\n" % rule.encode()))
    for size in (59, 60, 61, 62):
        nested = b"(and (by 0) " * ((size - 1) // 2 % 14) + b"(by 1)" + b")" * ((size - 1) // 2 % 14)
        case("chain %d" % size, whole("(open 2 (0 0))", *line, rule=b"(rule %s)\n" % nested))

    def tree(n, depth=14):
        """n subformulas."""
        if n == 1:
            return b"(by 1)"
        if n == 2 or depth == 0:
            return b"(not %s)" % tree(n - 1, depth - 1)
        left = max(1, (n - 1) // 2)
        return b"(or %s %s)" % (tree(left, depth - 1), tree(n - 1 - left, depth - 1))

    for size in (59, 60, 61, 62, 127):
        case("subformulas %d" % size, whole("(open 2 (0 0))", *line, rule=b"(rule %s)\n" % tree(size)))
        case("subformulas %d behind" % size, whole("(open 2 (0 0))", *line, rule=b"(rule (and (mark 99) %s))\n" % tree(size - 2)))
    case("read-between", whole("(open 2 (0 0))", "(write 0 0 7)", "(read 1 0 7)", "(write 1 1 9)", rule=b"(rule (implies (gt 1 0) (once (gt 0 0))))\n"))
    case("not-between", whole("(open 2 (0 0))", "(write 0 0 7)", "(write 1 1 9)", rule=b"(rule (implies (gt 1 0) (once (gt 0 0))))\n"))
    crossed = "(acquire 0 0)", "(acquire 0 1)", "(release 0 1)", "(release 0 0)", "(acquire 1 1)", "(acquire 1 0)", "(release 1 0)", "(release 1 1)"
    case("crossed-locks", whole("(open 2 ())", *crossed))
    case("crossed-locks-begin", whole("(open 2 ())", *crossed, rule=b"(rule (not (and (by 1) (not (before (or (by 0) (by 1)))))))\n"))


def refusals():
    case("threads-0", whole("(open 0 ())"))
    case("threads-8", whole("(open 8 ())"))
    case("threads-9", whole("(open 9 ())"))
    case("values-32", whole("(open 1 (%s))" % " ".join(["0"] * 32)))
    case("values-33", whole("(open 1 (%s))" % " ".join(["0"] * 33)))
    case("rows-1025", whole("(open 1 ())"), rows=1025)
    case("threads-9-values-33", whole("(open 9 (%s))" % " ".join(["0"] * 33)), rows=1025)
    case("values-33-rows-1025", whole("(open 8 (%s))" % " ".join(["0"] * 33)), rows=1025)
    case("thread-2-of-2", whole("(open 2 (0))", "(write 2 0 1)"))
    case("label-31", whole("(open 2 (0))", "(internal 1 31 4)"))
    case("label-32", whole("(open 2 (0))", "(internal 1 32 4)"))
    case("no-variable-read", whole("(open 2 (0))", "(read 1 1 0)"))
    case("no-variable-write", whole("(open 2 ())", "(write 1 0 0)"))
    case("lock-16-acquire", whole("(open 2 ())", "(acquire 0 15)", "(acquire 0 16)"))
    case("lock-16-release", whole("(open 2 ())", "(release 0 16)"))
    case("read-not-the-start", whole("(open 2 (5))", "(read 0 0 5)", "(read 0 0 4)"))
    case("read-not-the-latest", whole("(open 2 (5))", "(write 0 0 6)", "(write 1 0 7)", "(read 0 0 6)"))
    case("read-the-latest", whole("(open 2 (5 1))", "(write 0 0 6)", "(write 1 0 7)", "(write 1 1 6)", "(read 0 0 7)"))
    case("acquire-held", whole("(open 2 ())", "(acquire 0 3)", "(acquire 1 3)"))
    case("acquire-held-by-itself", whole("(open 2 ())", "(acquire 0 3)", "(acquire 0 3)"))
    case("release-free", whole("(open 2 ())", "(release 0 3)"))
    case("release-of-another", whole("(open 2 ())", "(acquire 0 3)", "(release 1 3)"))
    case("release-twice", whole("(open 2 ())", "(acquire 0 3)", "(release 0 3)", "(release 0 3)"))
    case("thread-ahead-of-subject", whole("(open 2 ())", "(write 2 9 0)"))
    case("subject-ahead-of-value", whole("(open 2 ())", "(read 1 9 3)"))


def full():
    line = "(internal %d 0 0)"
    case("thread-255", whole("(open 2 ())", *[line % 1] * 255))
    case("thread-256", whole("(open 2 ())", *[line % 1] * 256))
    case("thread-256-held", whole("(open 2 ())", "(acquire 0 0)", *[line % 1] * 255, "(acquire 1 0)"))
    case("thread-256-free", whole("(open 2 ())", *[line % 1] * 255, "(acquire 1 0)"))
    spread = [line % (i % 5) for i in range(1025)]
    case("events-1024", whole("(open 5 ())", *spread[:1024]))
    case("events-1025", whole("(open 5 ())", *spread))
    case("rows-0", whole("(open 1 ())", line % 0), rows=0)
    case("rows-0-no-events", whole("(open 1 ())"), rows=0)
    case("rows-1", whole("(open 1 ())", line % 0, line % 0), rows=1)
    case("rows-1-held", whole("(open 1 ())", "(acquire 0 0)", "(acquire 0 0)"), rows=1)
    case("rows-1-read", whole("(open 1 (0))", "(write 0 0 1)", "(read 0 0 0)"), rows=1)


def sizes():
    head, tail = b"(open 1 (", b"))\n" + RULE
    values = 60000 - len(head) - len(tail)
    digits = b"10" if values % 2 == 0 else b"1"
    text = head + digits + b" 1" * ((values - len(digits)) // 2) + tail
    case("bytes-60000", text)
    case("bytes-60001", text.replace(b"(1", b"(11", 1) if len(digits) == 1 else text.replace(b"(10", b"(100", 1))
    case("bytes-60001-wrong", b"x" * 60001)
    case("bytes-60000-wrong", b"x" * 60000)


def numbers():
    for digits in ("0", "255", "256", "00", "01", "-0", "-1", "+1", "1234567890", "12345678901", "9999999999"):
        case("thread-count " + digits, whole("(open %s ())" % digits))
        case("thread " + digits, whole("(open 1 ())", "(internal %s 0 0)" % digits))
    for digits in ("0", "-0", "00", "-1", "--1", "-", "2147483647", "2147483648", "-2147483648", "-2147483649", "-9999999999", "-10000000000", "1e3"):
        case("value " + digits, whole("(open 1 (0))", "(write 0 0 %s)" % digits))
        case("start " + digits, whole("(open 1 (%s))" % digits))
        case("constant " + digits, whole("(open 1 (0))", rule=b"(rule (eq 0 %s))\n" % digits.encode()))
    case("first-number-out", whole("(open 256 (4294967296))", "(write 300 0 0)", rule=b"(rule (mark 256))\n"))
    case("second-number-out", whole("(open 1 (4294967296))", "(write 300 0 0)"))
    case("rule-number-out", whole("(open 1 ())", "(internal 0 255 0)", rule=b"(rule (and (mark 255) (or (by 256) (eq 300 0))))\n"))
    case("rule-constant-out", whole("(open 1 ())", rule=b"(rule (and (mark 255) (or (by 0) (eq 30 2147483648))))\n"))
    case("size-behind-shape", whole("(open 256 ())", "(write 0 0 0"))


def nesting():
    def nest(depth, word=b"not", leaf=b"(by 0)"):
        levels = depth - 2
        return whole("(open 1 ())", rule=b"(rule " + (b"(" + word + b" ") * levels + leaf + b")" * levels + b")\n")

    case("nest-16", nest(16))
    case("nest-17", nest(17))
    case("nest-17-before", nest(17, b"before"))
    case("nest-16-by", nest(16, leaf=b"(mark 1)"))
    case("nest-17-and", whole("(open 1 ())", rule=b"(rule " + b"(not " * 14 + b"(and (by 0) (by 0))" + b")" * 14 + b")\n"))
    case("nest-wide", whole("(open 1 ())", rule=b"(rule " + b"(and (by 0) " * 14 + b"(by 1)" + b")" * 14 + b")\n"))


def words():
    lines = {"internal": " 0 0 0)", "read": " 0 0 0)", "write": " 0 0 0)", "acquire": " 0 0)", "release": " 0 0)", "rule": " (by 0))"}
    for word, rest in lines.items():
        for i in range(len(word) + 1):
            case("line %s %d" % (word, i), b"(open 1 (0))\n(" + (word[:i] + "z" + word[i + 1 :]).encode() + rest.encode() + b"\n" + RULE)
            case("line %s to %d" % (word, i), b"(open 1 (0))\n(" + word[:i].encode())
    for word in ("eq", "lt", "gt", "mark", "by", "not", "before", "once", "always", "and", "or", "implies", "since"):
        for i in range(len(word) + 1):
            case("rule %s %d" % (word, i), b"(open 1 (0))\n(rule (" + (word[:i] + "z" + word[i + 1 :]).encode() + b" 0 0)))\n")
    for i in range(len("(open ")):
        case("open %d" % i, whole("(open 1 ())")[:i] + b"~" + whole("(open 1 ())")[i + 1 :])


def shapes():
    text = whole("(open 2 (0 -1))", "(write 0 0 7)", "(acquire 1 3)", rule=b"(rule (implies (gt 1 0) (once (gt 0 0))))\n")
    case("empty", b"")
    for i in range(1, len(text)):
        case("front %d" % i, text[:i])
    for i in range(0, len(text), 3):
        for byte in (0, 10, 32, 40, 41, 45, 48, 128, 255):
            case("byte %d at %d" % (byte, i), text[:i] + bytes([byte]) + text[i + 1 :])
        case("without %d" % i, text[:i] + text[i + 1 :])
        case("twice %d" % i, text[: i + 1] + text[i:])
    case("after-the-rule", text + b"(")
    case("two-rules", text + RULE)
    case("carriage-return", text.replace(b"\n", b"\r\n"))
    case("blank-line", text.replace(b"\n", b"\n\n", 1))
    case("two-blanks", text.replace(b"write 0", b"write  0"))
    case("tab", text.replace(b"write 0", b"write\t0"))


def current(starts, actions, x):
    values = [v for _, k, s, v in actions if k == 2 and s == x]
    return values[-1] if values else starts[x]


WORDS = ("internal", "read", "write", "acquire", "release")


def small():
    """Every trace of a small alphabet, up to so many events; a read reads the current value."""
    alphabets = (
        (2, 6, (0,), ((0, 2, 0, 1), (1, 2, 0, 2), (1, 1, 0, None)), "(implies (by 1) (once (by 0)))"),
        (2, 6, (), ((0, 3, 0, 0), (0, 4, 0, 0), (1, 3, 0, 0), (1, 4, 0, 0)), "(since (not (by 1)) (by 0))"),
        (2, 4, (3,), ((0, 2, 0, 1), (0, 1, 0, None), (1, 2, 0, 2), (1, 1, 0, None), (0, 0, 5, 0)), "(not (and (mark 5) (once (eq 0 2))))"),
        (3, 4, (0,), ((0, 2, 0, 1), (1, 2, 0, 2), (2, 1, 0, None), (2, 3, 0, 0), (0, 3, 0, 0)), "(always (or (not (by 2)) (before (gt 0 0))))"),
        (2, 8, (0,), ((0, 2, 0, 1), (1, 1, 0, None)), "(implies (by 1) (once (by 0)))"),
    )
    for number, (threads, most, starts, alphabet, rule) in enumerate(alphabets):
        for length in range(most + 1):
            for picks in itertools.product(range(len(alphabet)), repeat=length):
                actions = []
                for pick in picks:
                    thread, kind, subject, value = alphabet[pick]
                    actions.append((thread, kind, subject, current(starts, actions, subject) if value is None else value))
                lines = ["(%s %d %d%s)" % (WORDS[k], t, s, " %d" % v if k < 3 else "") for t, k, s, v in actions]
                text = whole("(open %d (%s))" % (threads, " ".join(map(str, starts))), *lines, rule=b"(rule %s)\n" % rule.encode())
                try:
                    note(read(text), 1024)
                except Fault:
                    continue
                case("small %d %s" % (number, "".join(map(str, picks))), text)


def study(text, rows):
    """What a small trace's other calls say, by the enumerator, which must agree with the verdict too."""
    recording = read(text)
    threads, starts, actions, rule = recording
    if len(actions) > 8 or threads > 3:
        return None
    found = [lists for lists, broken in runs(threads, actions, starts, rule) if broken]
    verdict, _, run = predict(text, rows)
    assert (verdict == "found") == bool(found) and (not found or tuple(run) == found[0]), text
    return "%d runs %d map %d" % digests(threads, actions, starts, rule)


def main():
    for part in (recordings, rules, refusals, full, sizes, numbers, nesting, words, shapes, small):
        part()
    crate = os.path.join(os.path.dirname(os.path.abspath(__file__)), "..", "crates", "trials")
    with open(os.path.join(crate, "stdin"), "wb") as cases, open(os.path.join(crate, "stdout"), "w") as answers:
        for name, rows, text in CASES:
            cases.write(b"%d %d %s\n" % (rows, len(text), name.encode()) + text + b"\n")
            answers.write("%s: %s\n" % (name, answer(text, rows)))
            more = None if answer(text, rows).startswith("(") else study(text, rows)
            if more:
                answers.write("%s: %s\n" % (name, more))


main()
