"""Runs the built program on damaged and random texts, and checks each run from outside.

    python3 trials/damaged.py [--runs N] [--seed S] [--program PATH]    run and check; the last line says how many were wrong
    python3 trials/damaged.py --only SORT [--runs N] [--seed S]         the same with one random sort alone
    python3 trials/damaged.py --self-test                               show that wrong programs are noticed, each for its own reason
    python3 trials/damaged.py --least                                   the least stack and memory with which a sample runs
    python3 trials/damaged.py --seed S --show SORT NUMBER               one random text

docs/TRIALS.md says what is checked, and what was measured.
"""

import argparse
import collections
import os
import random
import sys
import tempfile
import time

from checking import Checker, Wrong
from running import KIB, Limits, Runner
from sorts import RANDOM, chosen, made, of_one_sort
from wrong_programs import WRONG, WRONG_IN_RUNS, write

PROGRAM = os.path.join(os.path.dirname(os.path.abspath(__file__)), "..", "crates", "predict", "out", "predict")
SHOWN = 20


class Largest:
    """The largest of some figure, and what had it."""

    def __init__(self):
        self.figure, self.of = 0, "nothing"

    def take(self, figure, of):
        if figure > self.figure:
            self.figure, self.of = figure, of


def describe(sort, number):
    return "%s: %s" % (sort, number)


def checked(runner, texts, with_reference=True):
    """Runs all texts; the checker, the counts by sort, the three largest figures, and what was wrong."""
    checker, counts, wrong = Checker(with_reference), collections.Counter(), []
    largest = {"wall": Largest(), "processor": Largest(), "resident": Largest()}
    for sort, number, text, feed in texts:
        outcome = runner.run(text, feed)
        counts[sort] += 1
        for name, most in largest.items():
            most.take(getattr(outcome, name), describe(sort, number))
        try:
            checker.check(text, feed, outcome)
        except Wrong as fault:
            wrong.append((sort, number, text, feed) + fault.args)
    return checker, counts, largest, wrong


def report(checker, counts, largest, wrong, unseen, seconds):
    for sort, count in counts.items():
        print("%7d  %s" % (count, sort))
    print("%7d  runs in %d s" % (sum(counts.values()), seconds))
    print("answers: " + ", ".join("%s %d" % (answer, checker.answers[answer]) for answer in sorted(checker.answers)))
    print("all orders listed: %d recordings; found runs held against the definitions: %d, of which %d where the order seen keeps the rule" % (checker.enumerated, checker.runs_checked, checker.other_order))
    print("largest wall time: %.3f s (%s)" % (largest["wall"].figure, largest["wall"].of))
    print("largest processor time: %.3f s (%s)" % (largest["processor"].figure, largest["processor"].of))
    print("largest resident memory: %d KiB (%s)" % (largest["resident"].figure // KIB, largest["resident"].of))
    for sort, number, text, feed, kind, seen in wrong[:SHOWN]:
        print("WRONG %s (%s, feed %s): %s\n  text %r" % (kind, describe(sort, number), feed, seen, text[:2000]))
    for answer in unseen:
        print("WRONG: no text had the answer %s" % answer)
    print("%d wrong" % (len(wrong) + len(unseen)))


def run_all(program, limits, seed, runs, only):
    """All sorts, which have to bring about every answer that there is, or one sort alone."""
    begun = time.monotonic()
    print("seed %s, stack %d KiB, address space %d KiB, processor %d s, wall %d s" % (seed, limits.stack // KIB, limits.memory // KIB, limits.processor, limits.wall), flush=True)
    checker, counts, largest, wrong = checked(Runner(program, limits), of_one_sort(seed, only, runs) if only else chosen(seed, runs))
    unseen = [] if only else checker.never_seen()
    report(checker, counts, largest, wrong, unseen, time.monotonic() - begun)
    return not wrong and not unseen


def first_wrong(program, limits, texts, with_reference=True):
    """The kind of the first wrong run, or None."""
    runner = Runner(program, limits)
    try:
        for text in texts:
            wrong = checked(runner, [text], with_reference)[3]
            if wrong:
                return wrong[0][4]
    finally:
        runner.close()
    return None


def sample(seed, runs):
    """Without the many short ones, in mixed order."""
    texts = [text for text in chosen(seed, runs) if text[0] not in ("every prefix", "single bytes")]
    random.Random(seed).shuffle(texts)
    return texts


def self_test(program):
    """The program itself is right on a sample, and every wrong one is noticed for the reason given with it."""
    closed, opened = [], []
    for text in sample("self-test", 2200):
        (closed if text[3] == "closed" else opened).append(text)
    passed = True
    with tempfile.TemporaryDirectory() as folder:
        cases = [("the program itself", None, program, True)]
        for wrong, with_reference in ((WRONG, True), (WRONG_IN_RUNS, False)):
            cases += [(name, kind, write(folder, name, script, program), with_reference) for name, kind, script in wrong]
        for name, kind, path, with_reference in cases:
            # A sleep need not be waited for as long as a program that has little of the processor.
            limits = Limits(wall=2.0) if kind == "late" else Limits()
            seen = first_wrong(path, limits, closed if kind == "closed" else opened + closed, with_reference)
            passed = passed and seen == kind
            label = name if with_reference else name + ", without the reference reading"
            print("%s: %s%s" % (label, seen or "right", "" if seen == kind else ", WRONG: should be %s" % (kind or "right")), flush=True)
    print("passed" if passed else "failed")
    return passed


def least(program):
    """By halving, to 4 KiB: the least stack with ample memory, and the least memory with the usual stack."""
    texts = sample("least", 1800)
    for name, usual in (("stack", Limits(memory=64 * 1024 * KIB)), ("memory", Limits())):
        enough, too_little = getattr(usual, name) // (4 * KIB), 0
        while enough - too_little > 1:
            middle = (enough + too_little) // 2
            if first_wrong(program, usual._replace(**{name: middle * 4 * KIB}), texts) is None:
                enough = middle
            else:
                too_little = middle
        print("least %s: %d KiB, for %d texts" % (name, enough * 4, len(texts)), flush=True)
    return True


def main():
    parser = argparse.ArgumentParser(description=__doc__, formatter_class=argparse.RawDescriptionHelpFormatter)
    usual = Limits()
    parser.add_argument("--runs", type=int, default=20000)
    parser.add_argument("--seed", default="1")
    parser.add_argument("--program", default=PROGRAM)
    parser.add_argument("--stack", type=int, default=usual.stack // KIB, help="in KiB")
    parser.add_argument("--memory", type=int, default=usual.memory // KIB, help="address space in KiB")
    parser.add_argument("--only", choices=RANDOM, metavar="SORT", help="one random sort alone; see --show")
    parser.add_argument("--self-test", action="store_true")
    parser.add_argument("--least", action="store_true")
    parser.add_argument("--show", nargs=2, metavar=("SORT", "NUMBER"), help="a sort of: " + "; ".join(RANDOM))
    options = parser.parse_args()
    if options.show:
        sys.stdout.buffer.write(made(options.seed, options.show[0], int(options.show[1]))[0])
        return True
    if not os.path.exists(options.program):
        parser.error("there is no program at %s; `rt run` in crates/predict builds it" % options.program)
    if options.self_test:
        return self_test(options.program)
    if options.least:
        return least(options.program)
    return run_all(options.program, usual._replace(stack=options.stack * KIB, memory=options.memory * KIB), options.seed, options.runs, options.only)


if __name__ == "__main__":
    sys.exit(0 if main() else 1)
