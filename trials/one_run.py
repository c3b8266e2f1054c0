"""Whether one list of threads is a consistent run of a recording that breaks its rule, for recordings of any size.

By the definitions, as in enumerator.py, but in time that grows with the number of events and not with its powers. Nothing here
steps through cuts or codes.
"""


def ordering(events, threads):
    """The events in the order of a thread list, or None where it does not list each thread's events all and once."""
    own = {}
    for i, event in enumerate(events):
        own.setdefault(event[0], []).append(i)
    left = {t: iter(places) for t, places in own.items()}
    order = [next(left[t], None) if t in left else None for t in threads]
    return order if len(order) == len(events) and None not in order else None


def shared(event):
    """The variable or lock of an event."""
    return None if event[1] == 0 else (event[1] > 2, event[2])


def grouped(events):
    """For each event the event that leads its group, None for a starting group or an internal event."""
    leaders, latest = [], {}
    for i, event in enumerate(events):
        if event[1] in (2, 3):
            latest[shared(event)] = i
        leaders.append(latest.get(shared(event)) if event[1] else None)
    return leaders


def consistent(events, order):
    """Of an ordering that keeps each thread's own order."""
    leaders = grouped(events)
    seen, current, ended = set(), {}, set()
    for i in order:
        seen.add(i)
        if events[i][1] == 0:
            continue
        leader, thing = leaders[i], shared(events[i])
        if leader is not None and leader not in seen:
            return False
        if current.get(thing, leader) != leader:
            ended.add((thing, current[thing]))
        current[thing] = leader
        if (thing, leader) in ended:
            return False
    firsts = {}
    for i in order:
        firsts.setdefault(shared(events[i]), i)
    starting = {shared(events[i]) for i, leader in enumerate(leaders) if leader is None and events[i][1]}
    return all(leaders[firsts[thing]] is None for thing in starting)


def truths(formula, starts, run):
    """The truth of a formula after each event of a run, by positions."""
    word, parts = formula[0], formula[2:]
    if word in ("eq", "lt", "gt"):
        values, value = [], starts[parts[0]]
        for _, kind, subject, written in run:
            value = written if (kind, subject) == (2, parts[0]) else value
            values.append(value)
        return [{"eq": v == parts[1], "lt": v < parts[1], "gt": v > parts[1]}[word] for v in values]
    if word == "mark":
        return [(kind, subject) == (0, parts[0]) for _, kind, subject, _ in run]
    if word == "by":
        return [thread == parts[0] for thread, _, _, _ in run]
    inner = [truths(part, starts, run) for part in parts]
    first, places = inner[0], range(len(run))
    if word == "before":
        return [n > 0 and first[n - 1] for n in places]
    if word == "once":
        earliest = next((n for n in places if first[n]), len(run))
        return [n >= earliest for n in places]
    if word == "always":
        earliest = next((n for n in places if not first[n]), len(run))
        return [n < earliest for n in places]
    if word == "since":
        answer, held, broken = [], -1, -1
        for n in places:
            held, broken = (n if inner[1][n] else held), (n if not first[n] else broken)
            answer.append(held >= 0 and broken <= held)
        return answer
    plain = {"not": lambda f: not f, "and": lambda f, g: f and g, "or": lambda f, g: f or g, "implies": lambda f, g: not f or g}[word]
    return [plain(*here) for here in zip(*inner)]


def breaks(recording, threads):
    """Whether the thread list is a consistent run that makes the rule false after some event."""
    _, starts, events, rule = recording
    order = ordering(events, threads)
    return order is not None and consistent(events, order) and not all(truths(rule, starts, [events[i] for i in order]))
