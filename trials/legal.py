"""Recordings that are legal and whole, made at random, to run the program on and to damage."""

import one_run
import reference

WORDS = ("internal", "read", "write", "acquire", "release")
LEAVES = ("eq", "lt", "gt", "mark", "by")
UNARY = ("not", "before", "once", "always")
BINARY = ("and", "or", "implies", "since")
DEEPEST = 15
VALUES = (0, 1, 2, 3, -1, 9, 2147483647, -2147483648)


def line(action):
    thread, kind, subject, value = action
    return "(%s %d %d%s)\n" % (WORDS[kind], thread, subject, " %d" % value if kind < 3 else "")


def text(threads, starts, actions, rule):
    """The bytes of a recording."""
    opening = "(open %d (%s))\n" % (threads, " ".join(map(str, starts)))
    return (opening + "".join(map(line, actions)) + "(rule %s)\n" % rule).encode()


def starting(rng, variables):
    return [rng.choice(VALUES) for _ in range(variables)]


def leaf(rng, threads, variables):
    word = rng.choice(LEAVES if variables else LEAVES[3:])
    if word == "mark":
        return "(mark %d)" % rng.choice((0, 1, 2, 5, 31))
    if word == "by":
        return "(by %d)" % rng.choice((rng.randrange(threads), 7))
    return "(%s %d %d)" % (word, rng.randrange(variables), rng.choice(VALUES))


def formula(rng, size, threads, variables, depth=DEEPEST):
    """A formula with so many subformulas, and at most so many brackets deep."""
    inner = 2 ** (depth - 1) - 1
    if size == 1:
        return leaf(rng, threads, variables)
    if size == 2 or size - 1 <= inner and rng.random() < 0.4:
        return "(%s %s)" % (rng.choice(UNARY), formula(rng, size - 1, threads, variables, depth - 1))
    left = rng.randint(max(1, size - 1 - inner), min(size - 2, inner))
    parts = [formula(rng, n, threads, variables, depth - 1) for n in (left, size - 1 - left)]
    return "(%s %s %s)" % (rng.choice(BINARY), *parts)


def house_rule(rng, threads, variables):
    """A rule as testers write them: some orders of a recording keep it, and some may break it."""
    pattern = rng.choice(("(implies F (once F))", "(not (and F (once F)))", "(implies F (before F))", "(since (not F) F)", "(implies F (since F F))", "(always (or (not F) (before (once F))))", "(implies (and F F) (not (once F)))"))
    while "F" in pattern:
        pattern = pattern.replace("F", leaf(rng, threads, variables), 1)
    return pattern


def rule(rng, threads, variables):
    if rng.random() < 0.6:
        return house_rule(rng, threads, variables)
    return formula(rng, rng.choice((1, 2, 3, 4, 5, 8, 13, 30, 60)), threads, variables)


class Gateway:
    """Threads that act at random, and never as a recording could not show."""

    def __init__(self, rng, threads, starts):
        self.rng, self.threads, self.values, self.holders = rng, threads, list(starts), {}
        self.counts, self.latest, self.actions = [0] * threads, None, []

    def act(self, action):
        thread, kind, subject, value = action
        self.counts[thread] += 1
        self.actions.append(action)
        if kind == 2:
            self.values[subject], self.latest = value, subject
        elif kind == 3:
            self.holders[subject] = thread
        elif kind == 4:
            del self.holders[subject]

    def internal(self, thread):
        self.act((thread, 0, self.rng.choice((0, 1, 2, 5, 31)), self.rng.choice(VALUES)))

    def read(self, thread, variable):
        self.act((thread, 1, variable, self.values[variable]))

    def write(self, thread, variable):
        self.act((thread, 2, variable, self.rng.choice(VALUES)))

    def step(self, thread, kind):
        """An event of this kind; an internal one where there can be none."""
        lock = self.rng.choice((0, 1, 15))
        held = [k for k, holder in self.holders.items() if holder == thread]
        if kind in (1, 2) and self.values:
            (self.read if kind == 1 else self.write)(thread, self.rng.randrange(len(self.values)))
        elif kind == 3 and lock not in self.holders:
            self.act((thread, 3, lock, 0))
        elif kind == 4 and held:
            self.act((thread, 4, self.rng.choice(held), 0))
        else:
            self.internal(thread)

    def free(self):
        """A thread with fewer than 255 events."""
        return self.rng.choice([t for t in range(self.threads) if self.counts[t] < 255])


def loose(rng, threads, events, variables):
    """Any thread may act at any time."""
    starts = starting(rng, variables)
    gateway = Gateway(rng, threads, starts)
    for _ in range(events):
        gateway.step(gateway.free(), rng.choice((0, 1, 1, 2, 2, 3, 4, 4)))
    return starts, gateway.actions


def handed_on(rng, threads, events, variables, slips=0.0):
    """One thread acts at a time, and hands on by a write of variable 0 that the next one reads; now and then it slips that read.

    So even long recordings have few orders.
    """
    starts = starting(rng, variables)
    gateway = Gateway(rng, threads, starts)
    while len(gateway.actions) < events:
        room = min(events - len(gateway.actions), rng.randint(1, 9))
        thread = gateway.free()
        room = min(room, 255 - gateway.counts[thread])
        for i in range(room):
            if i == 0 and rng.random() >= slips:
                gateway.read(thread, 0)
            elif i == room - 1:
                gateway.write(thread, 0)
            else:
                gateway.step(thread, rng.choice((0, 1, 3, 4)))
    return starts, gateway.actions


def small(rng):
    """At most seven events, so that all their orders can be listed."""
    threads, variables = rng.choice((1, 2, 2, 2, 3, 3, 4, 8)), rng.randint(0, 3)
    starts, actions = loose(rng, threads, rng.choice((0, 1, 2, 3, 4, 4, 5, 5, 6, 6, 7)), variables)
    return text(threads, starts, actions, rule(rng, threads, variables))


def about(action):
    """A formula that holds after this event, and not after most others."""
    thread, kind, subject, value = action
    return "(mark %d)" % subject if kind == 0 else "(eq %d %d)" % (subject, value) if kind == 2 else "(by %d)" % thread


def kept(rng):
    """At most seven events, with a rule that the order seen keeps, mostly, so that only another order can break it."""
    threads, variables = rng.choice((2, 2, 3, 4)), rng.randint(1, 3)
    starts, actions = loose(rng, threads, rng.randint(3, 7), variables)
    for _ in range(20):
        earlier, later = (about(actions[i]) for i in sorted(rng.sample(range(len(actions)), 2)))
        pattern = rng.choice(("(implies L (once E))", "(not (and E (once L)))", "(implies L (before E))", "(implies L (since (not L) E))", "(implies (and L (before (not L))) (once E))"))
        whole = text(threads, starts, actions, pattern.replace("L", later).replace("E", earlier))
        if not one_run.breaks(reference.read(whole), [action[0] for action in actions]):
            break
    return whole


def middling(rng):
    """Some dozens of events."""
    threads, variables = rng.randint(2, 8), rng.randint(1, 32)
    events = rng.randint(8, 60)
    starts, actions = loose(rng, threads, events, variables) if rng.random() < 0.5 else handed_on(rng, threads, events, variables, 0.2)
    return text(threads, starts, actions, rule(rng, threads, variables))


def large(rng):
    """Hundreds of events, up to 1,024."""
    threads, variables = rng.randint(5, 8), rng.randint(1, 4)
    starts, actions = handed_on(rng, threads, rng.choice((200, 500, 1000, 1023, 1024)), variables, rng.choice((0, 0, 0.01)))
    return text(threads, starts, actions, rule(rng, threads, variables))


def wide(rng):
    """Threads that hardly wait for each other: about as many pairs as there are search rows, or far more."""
    threads = rng.choice((2, 3, 4, 8, 8, 8))
    counts = {2: (31, 63), 3: (11, 11, 13), 4: (5, 6, 6, 6), 8: (1, 1, 1, 1, 1, 1, 1, 15)}[threads]
    counts = [max(0, n + rng.choice((0, 0, 0, 0, -1, 1))) for n in counts] if rng.random() < 0.7 else [rng.choice((2, 20, 100)) for _ in counts]
    order = [t for t, n in enumerate(counts) for _ in range(n)]
    rng.shuffle(order)
    actions = [(t, 0, rng.choice((0, 5)), 0) for t in order]
    return text(threads, [0], actions, rng.choice(("(not (mark 4))", "(not (mark 5))", "(gt 0 0)", formula(rng, 60, threads, 1))))
