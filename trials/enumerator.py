"""Consistent runs by their definition alone, to hold replay, judge and map against.

It tries every ordering of the events that keeps each thread's own order, and asks the definition of each: what is before an
event stands ahead of it, no event of the same variable or lock stands between two events of a group, and a starting group
stands ahead of all other events of its variable. Truth of a rule is by positions of the run. Nothing here steps through cuts
or codes.
"""

import itertools


def feeds(events, e, f):
    (_, ke, se, _), (_, kf, sf, _) = events[e], events[f]
    if e >= f or se != sf:
        return False
    between = events[e + 1 : f]
    if (ke, kf) == (2, 1):
        return not any(k == 2 and s == se for _, k, s, _ in between)
    if (ke, kf) == (3, 4):
        return not any(k in (3, 4) and s == se for _, k, s, _ in between)
    return False


def before(events):
    """The set of (e, f) with e before f."""
    n = len(events)
    pairs = {(e, f) for e in range(n) for f in range(n) if feeds(events, e, f) or e < f and events[e][0] == events[f][0]}
    while True:
        more = {(e, g) for e, f in pairs for f2, g in pairs if f == f2} - pairs
        if not more:
            return pairs
        pairs |= more


def shared(event):
    return None if event[1] == 0 else (event[1] > 2, event[2])


def groups(events):
    """(members, whether it is a starting group)"""
    n = len(events)
    led = [({e} | {f for f in range(n) if feeds(events, e, f)}, False) for e in range(n) if events[e][1] in (2, 3)]
    starting = []
    for x in {e[2] for e in events if e[1] in (1, 2)}:
        reads = {i for i in range(n) if events[i][1] == 1 and events[i][2] == x and not any(events[k][1] == 2 and events[k][2] == x for k in range(i))}
        if reads:
            starting.append((reads, True))
    return led + starting


def consistent(events, order, pairs, grouped):
    at = {e: k for k, e in enumerate(order)}
    if any(at[e] >= at[f] for e, f in pairs):
        return False
    for members, starting in grouped:
        of = shared(events[next(iter(members))])
        outside = [at[i] for i in range(len(events)) if i not in members and shared(events[i]) == of]
        first, last = min(at[i] for i in members), max(at[i] for i in members)
        if any(first < k < last for k in outside) or starting and any(k < last for k in outside):
            return False
    return True


def holds(formula, starts, run, n):
    """The truth of a formula after the first n events, n from 1."""
    word, parts = formula[0], formula[2:]
    now = lambda f, m: holds(f, starts, run, m)
    thread, kind, subject, _ = run[n - 1]
    if word in ("eq", "lt", "gt"):
        writes = [v for _, k, s, v in run[:n] if k == 2 and s == parts[0]]
        value = writes[-1] if writes else starts[parts[0]]
        return {"eq": value == parts[1], "lt": value < parts[1], "gt": value > parts[1]}[word]
    if word == "mark":
        return kind == 0 and subject == parts[0]
    if word == "by":
        return thread == parts[0]
    if word == "not":
        return not now(parts[0], n)
    if word == "and":
        return now(parts[0], n) and now(parts[1], n)
    if word == "or":
        return now(parts[0], n) or now(parts[1], n)
    if word == "implies":
        return not now(parts[0], n) or now(parts[1], n)
    if word == "before":
        return n > 1 and now(parts[0], n - 1)
    if word == "once":
        return any(now(parts[0], m) for m in range(1, n + 1))
    if word == "always":
        return all(now(parts[0], m) for m in range(1, n + 1))
    return any(now(parts[1], m) and all(now(parts[0], j) for j in range(m + 1, n + 1)) for m in range(1, n + 1))


def runs(threads, events, starts, rule):
    """(thread list, whether the rule was false after some event), for every consistent run, in the order of the lists."""
    pairs, grouped, found = before(events), groups(events), []
    own = [[i for i, e in enumerate(events) if e[0] == t] for t in range(threads)]
    for lists in sorted(set(itertools.permutations([e[0] for e in events]))):
        left = [iter(o) for o in own]
        order = [next(left[t]) for t in lists]
        if consistent(events, order, pairs, grouped):
            run = [events[i] for i in order]
            found.append((lists, any(not holds(rule, starts, run, n) for n in range(1, len(run) + 1))))
    return found


def map_rows(events):
    """thread, place, kind, subject, value, source and eight counts, by thread and then by place."""
    pairs, rows = before(events), []
    place = lambda i: sum(e[0] == events[i][0] for e in events[: i + 1])
    for i in sorted(range(len(events)), key=lambda i: (events[i][0], place(i))):
        thread, kind, subject, value = events[i]
        source = [e for e in range(len(events)) if feeds(events, e, i)]
        fed = (events[source[0]][0], place(source[0])) if source else (255, 0)
        clock = [sum(events[e][0] == t and (e == i or (e, i) in pairs) for e in range(len(events))) for t in range(8)]
        rows.append((thread, place(i), kind, subject, value) + fed + tuple(clock))
    return rows


def mixed(digest, n):
    return (digest * 1099511628211 + n) % 2**64


def digests(threads, events, starts, rule):
    """As crate `trials` prints them: the number of runs, a digest of the runs by the number of their lists, a digest of the map."""
    numbered = sorted((sum(t * threads**i for i, t in enumerate(lists)), broken) for lists, broken in runs(threads, events, starts, rule))
    digest = 0
    for number, broken in numbered:
        digest = mixed(mixed(digest, number), int(broken))
    map_digest = 0
    for row in map_rows(events):
        for n in row:
            map_digest = mixed(map_digest, abs(n))
    return len(numbered), digest, map_digest
