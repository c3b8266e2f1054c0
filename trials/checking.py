"""What is wrong with one run of the program, by the independent readings; and a tally of what was right."""

import collections
import re

import enumerator
import one_run
import reference

FEWEST_TO_SKIP = 8
FAULT = re.compile(rb"\(fault (text|record|rule|search) ([0-9]+) [0-9]+ [0-9]+\)\n")
NONE = re.compile(rb"\(verdict none\)\n\(pairs [0-9]+\)\n")
FOUND = re.compile(rb"\(verdict found\)\n\(pairs [0-9]+\)\n\(run((?: [0-7])+)\)\n")
ANYTHING_HOLDS = ("by", 0, 0)
TEMPORAL = ("once", "always", "since")

# Every answer that a text can bring about.
ANSWERS = ["none", "found"] + ["text %d" % n for n in (60, 61, 62, 63)] + ["record %d" % n for n in (1, 2, 11, 13, 15, 16, 17, 18, 19)] + ["rule %d" % n for n in (71, 72, 73, 74)] + ["search 22"]


class Wrong(Exception):
    """(kind, what was seen)"""


def require(held, kind, seen=""):
    if not held:
        raise Wrong(kind, seen)


def temporal_depth(formula):
    return (formula[0] in TEMPORAL) + max((temporal_depth(p) for p in formula[2:] if isinstance(p, tuple)), default=0)


def breaking(recording):
    """All thread lists that are consistent runs and break the rule, in their order."""
    threads, starts, events, rule = recording
    if temporal_depth(rule) < 3:
        return [lists for lists, broken in enumerator.runs(threads, events, starts, rule) if broken]
    # The enumerator's truth takes time by the power of this depth.
    return [lists for lists, _ in enumerator.runs(threads, events, starts, ANYTHING_HOLDS) if one_run.breaks(recording, lists)]


class Checker:
    def __init__(self, with_reference=True):
        self.with_reference = with_reference
        self.answers, self.enumerated, self.runs_checked, self.other_order = collections.Counter(), 0, 0, 0

    def check(self, text, feed, outcome):
        """Raises Wrong."""
        require(not outcome.late, "late", outcome.wall)
        require(outcome.signal == 0, "signal", outcome.signal)
        if feed == "closed":
            require((outcome.status, outcome.output, outcome.errors) == (1, b"", b""), "closed", outcome)
            return
        require(outcome.errors == b"", "standard error", outcome.errors)
        fault, none, found = (shape.fullmatch(outcome.output) for shape in (FAULT, NONE, FOUND))
        require(fault or none or found, "shape", outcome.output)
        require(outcome.status == (1 if fault else 0), "status", outcome.status)
        if self.with_reference:
            expected = reference.lines(text).encode()
            require(outcome.output == expected, "answer", (outcome.output, expected))
        self.answers["%s %s" % tuple(part.decode() for part in fault.groups()) if fault else "found" if found else "none"] += 1
        if not fault:
            self.check_run(reference.read(text), tuple(map(int, found.group(1).split())) if found else None)

    def check_run(self, recording, run):
        if run is not None:
            self.runs_checked += 1
            require(one_run.breaks(recording, run), "run", run)
            self.other_order += not one_run.breaks(recording, [event[0] for event in recording[2]])
        if len(recording[2]) < FEWEST_TO_SKIP:
            self.enumerated += 1
            least = next(iter(breaking(recording)), None)
            require(run == least, "orders", (run, least))

    def never_seen(self):
        return [answer for answer in ANSWERS if answer not in self.answers]
