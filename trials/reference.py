"""An independent reading of recordings, written from docs/ alone, to hold the predictor against.

`answer(text, rows)` gives what the predictor should say of a text (bytes) with so many event rows, on one line.
"""

import functools
import operator

LONGEST = 60000
DEPTH = 16
KINDS = {b"internal": 0, b"read": 1, b"write": 2, b"acquire": 3, b"release": 4}
COMPARISONS, NAMES = [b"eq", b"lt", b"gt"], [b"mark", b"by"]
UNARY = [b"not", b"before", b"once", b"always"]
BINARY = [b"and", b"or", b"implies", b"since"]


class Fault(Exception):
    def __init__(self, layer, number, line, column):
        super().__init__(layer, number, line, column)

    def line(self):
        return "(fault %s %d %d %d)" % self.args


def place(text, at):
    head = text[:at]
    return head.count(b"\n") + 1, at - (head.rfind(b"\n") + 1) + 1


class Parser:
    """Goes through the text byte by byte; `numbers` collects (offset, value, wide) in the order of the text."""

    def __init__(self, text):
        self.text, self.at, self.numbers = text, 0, []

    def wrong(self):
        if self.at == len(self.text):
            raise Fault("text", 62, *place(self.text, self.at))
        raise Fault("text", 61, *place(self.text, self.at))

    def peek(self):
        return self.text[self.at : self.at + 1]

    def take(self, expected):
        for i in range(len(expected)):
            if self.peek() != expected[i : i + 1]:
                self.wrong()
            self.at += 1

    def word(self, words):
        """One of the words, and the blank behind it."""
        start = self.at
        while True:
            so_far = self.text[start : self.at]
            following = {(w + b" ")[len(so_far) : len(so_far) + 1] for w in words if (w + b" ").startswith(so_far)}
            if not self.peek() or self.peek() not in following:
                self.wrong()
            self.at += 1
            if self.text[self.at - 1 : self.at] == b" ":
                return self.text[start : self.at - 1]

    def number(self, wide):
        start = self.at
        if wide and self.peek() == b"-":
            self.at += 1
            if self.peek() == b"0":
                self.wrong()
        if not self.peek().isdigit():
            self.wrong()
        first = self.peek()
        self.at += 1
        digits = 1
        while first != b"0" and digits < 10 and self.peek().isdigit():
            self.at += 1
            digits += 1
        value = int(self.text[start : self.at])
        self.numbers.append((start, value, wide))
        return value

    def formula(self, depth):
        """A formula whose own bracket is the depth-th."""
        at = self.at
        self.take(b"(")
        words = COMPARISONS + NAMES + (UNARY + BINARY if depth < DEPTH else [])
        word = self.word(words)
        if word in COMPARISONS:
            x = self.number(False)
            self.take(b" ")
            parts = (x, self.number(True))
        elif word in NAMES:
            parts = (self.number(False),)
        elif word in UNARY:
            parts = (self.formula(depth + 1),)
        else:
            f = self.formula(depth + 1)
            self.take(b" ")
            parts = (f, self.formula(depth + 1))
        self.take(b")")
        return (word.decode(), at) + parts

    def recording(self):
        self.take(b"(open ")
        threads = self.number(False)
        self.take(b" (")
        starts = []
        if self.peek() != b")":
            starts.append(self.number(True))
            while self.peek() == b" ":
                self.at += 1
                starts.append(self.number(True))
        self.take(b"))\n")
        actions = []
        while True:
            self.take(b"(")
            word = self.word([b"rule"] + list(KINDS))
            if word == b"rule":
                break
            kind = KINDS[word]
            thread = self.number(False)
            self.take(b" ")
            subject = self.number(False)
            value = 0
            if kind < 3:
                self.take(b" ")
                value = self.number(True)
            self.take(b")\n")
            actions.append((thread, kind, subject, value))
        rule = self.formula(2)
        self.take(b")\n")
        if self.at < len(self.text):
            self.wrong()
        return threads, starts, actions, rule


def read(text):
    if len(text) > LONGEST:
        raise Fault("text", 60, 1, 1)
    parser = Parser(text)
    recording = parser.recording()
    for at, value, wide in parser.numbers:
        if not (-(2**31) <= value < 2**31 if wide else value <= 255):
            raise Fault("text", 63, *place(text, at))
    return recording


def refused(threads, starts, rows, events, action):
    """The first number that fits, or 0; events are (thread, kind, subject, value)."""
    thread, kind, subject, value = action
    if thread >= threads:
        return 11
    if kind > 4:
        return 12
    if subject >= (32 if kind == 0 else len(starts) if kind < 3 else 16):
        return 13
    if kind > 2 and value != 0:
        return 14
    if kind == 1:
        writes = [e[3] for e in events if e[1] == 2 and e[2] == subject]
        if value != (writes[-1] if writes else starts[subject]):
            return 15
    locking = [e for e in events if e[1] in (3, 4) and e[2] == subject]
    holder = locking[-1][0] if locking and locking[-1][1] == 3 else None
    if kind == 3 and holder is not None:
        return 16
    if kind == 4 and holder != thread:
        return 17
    if sum(e[0] == thread for e in events) >= 255:
        return 18
    if len(events) >= rows:
        return 19
    return 0


def note(recording, rows):
    threads, starts, actions, _ = recording
    for number, fits in ((1, not 1 <= threads <= 8), (2, len(starts) > 32), (3, rows > 1024)):
        if fits:
            raise Fault("record", number, 1, 1)
    for i, action in enumerate(actions):
        number = refused(threads, starts, rows, actions[:i], action)
        if number:
            raise Fault("record", number, i + 2, 1)
    return len(actions)


def subformulas(formula):
    """In the order of their words: (word, offset of the bracket, parts), a part that is a formula by its number."""
    table = []

    def walk(f):
        number = len(table)
        table.append(None)
        table[number] = (f[0], f[1], tuple(walk(p) if isinstance(p, tuple) else p for p in f[2:]))
        return number

    walk(formula)
    return table


def make(text, recording):
    """The rule's table, or its first fault; brackets are offsets in the whole text."""
    table = subformulas(recording[3])
    if len(table) > 60:
        raise Fault("rule", 71, *place(text, table[60][1]))
    for word, at, parts in table:
        if word in ("eq", "lt", "gt") and parts[0] >= len(recording[1]):
            raise Fault("rule", 72, *place(text, at))
        if word == "mark" and parts[0] > 31:
            raise Fault("rule", 73, *place(text, at))
        if word == "by" and parts[0] > 7:
            raise Fault("rule", 74, *place(text, at))
    return table


COMPARE = {"eq": lambda v, c: v == c, "lt": lambda v, c: v < c, "gt": lambda v, c: v > c}


def start_code(table, starts):
    return sum(1 << i for i, (word, _, p) in enumerate(table) if word in COMPARE and COMPARE[word](starts[p[0]], p[1]))


def step_code(table, code, event):
    """Bit i is subformula i after the event, bit 60 that there was one, bit 61 that the whole was once false."""
    thread, kind, subject, value = event
    old = lambda i: code >> i & 1 == 1
    later, new = old(60), {}
    for i in reversed(range(len(table))):
        word, _, p = table[i]
        new[i] = {
            "eq": lambda: value == p[1] if (kind, subject) == (2, p[0]) else old(i),
            "lt": lambda: value < p[1] if (kind, subject) == (2, p[0]) else old(i),
            "gt": lambda: value > p[1] if (kind, subject) == (2, p[0]) else old(i),
            "mark": lambda: (kind, subject) == (0, p[0]),
            "by": lambda: thread == p[0],
            "not": lambda: not new[p[0]],
            "and": lambda: new[p[0]] and new[p[1]],
            "or": lambda: new[p[0]] or new[p[1]],
            "implies": lambda: not new[p[0]] or new[p[1]],
            "before": lambda: later and old(p[0]),
            "once": lambda: new[p[0]] or later and old(i),
            "always": lambda: new[p[0]] and (not later or old(i)),
            "since": lambda: new[p[1]] or new[p[0]] and later and old(i),
        }[word]()
    bad = old(61) or not new[0]
    return sum(1 << i for i in new if new[i]) | 1 << 60 | bad << 61


def either(sets):
    """The union of sets of events; a set is a number whose bit i stands for event i, since cuts are compared with sets at each step."""
    return functools.reduce(operator.or_, sets, 0)


class Trace:
    """Noted events (thread, kind, subject, value) with what feeds what and the groups, by the definitions."""

    def __init__(self, threads, events):
        self.threads, self.events = threads, events
        self.own = [[i for i, e in enumerate(events) if e[0] == t] for t in range(threads)]
        self.spot = {i: (t, p) for t in range(threads) for p, i in enumerate(self.own[t])}
        self.source, latest = {}, {}
        for i, (_, kind, subject, _) in enumerate(events):
            shared = (kind > 2, subject)
            if kind in (2, 3):
                latest[shared] = i
            elif kind in (1, 4):
                self.source[i] = latest.get(shared)
        self.groups = {}
        for i, (_, kind, subject, _) in enumerate(events):
            if kind in (2, 3):
                self.groups.setdefault((kind > 2, subject), {})[i] = 1 << i
            elif kind == 1:
                self.groups.setdefault((False, subject), {})
        for i, s in self.source.items():
            named = self.groups[self.object(i)]
            name = "start" if s is None else s
            named[name] = named.get(name, 0) | 1 << i
        self.ahead = []
        for i in range(len(events)):
            t, p = self.spot[i]
            direct = [j for j in (self.own[t][p - 1] if p else None, self.source.get(i)) if j is not None]
            self.ahead.append(either(1 << j | self.ahead[j] for j in direct))
        self.front = [[either(1 << i for i in own[:p]) for p in range(len(own) + 1)] for own in self.own]

    def object(self, i):
        kind, subject = self.events[i][1:3]
        return (kind > 2, subject) if kind else None

    def refused(self, cut, t):
        """0 where thread t's next event may follow the cut, else 33, 34 or 35."""
        if cut[t] >= len(self.own[t]):
            return 33
        i = self.own[t][cut[t]]
        held = either(self.front[u][count] for u, count in enumerate(cut))
        if self.ahead[i] & ~held:
            return 34
        for name, group in self.groups.get(self.object(i), {}).items():
            if not group >> i & 1 and group & ~held and (name == "start" or group & held):
                return 35
        return 0


def judge(trace, table, starts, room):
    """The pairs breadth first: (verdict, pairs, run)."""
    first = ((0,) * trace.threads, start_code(table, starts))
    rows, seen, i = [(first, 0, 255)], {first}, 0
    step = functools.cache(lambda code, event: step_code(table, code, event))
    while i < len(rows):
        (cut, code), _, _ = rows[i]
        for t in range(trace.threads):
            if trace.refused(cut, t) == 0:
                event = trace.events[trace.own[t][cut[t]]]
                node = (cut[:t] + (cut[t] + 1,) + cut[t + 1 :], step(code, event))
                if node not in seen:
                    if len(rows) == room:
                        raise Fault("search", 22, 0, 0)
                    seen.add(node)
                    rows.append((node, i, t))
        i += 1
    for i, ((cut, code), _, _) in enumerate(rows):
        if sum(cut) == len(trace.events) and code >> 61 & 1:
            run = []
            while i:
                run.append(rows[i][2])
                i = rows[i][1]
            return "found", len(rows), run[::-1]
    return "none", len(rows), []


def predict(text, rows=1024, room=2048):
    recording = read(text)
    note(recording, rows)
    table = make(text, recording)
    return judge(Trace(recording[0], recording[2]), table, recording[1], room)


def answer(text, rows=1024):
    """One line: the fault, or the verdict, the pairs and the run."""
    try:
        verdict, pairs, run = predict(text, rows)
        return " ".join([verdict, str(pairs)] + [str(t) for t in run])
    except Fault as fault:
        return fault.line()


def lines(text):
    """As the program prints it."""
    try:
        verdict, pairs, run = predict(text)
        return "(verdict %s)\n(pairs %d)\n" % (verdict, pairs) + ("(run%s)\n" % "".join(" %d" % t for t in run) if verdict == "found" else "")
    except Fault as fault:
        return fault.line() + "\n"


if __name__ == "__main__":
    import sys

    sys.stdout.write(lines(sys.stdin.buffer.read(LONGEST + 1)))
