#!/usr/bin/env python3
"""Gives the repository's own definitions and lemmas the spelling of today's Rattle, once, after its port script.

usage: python3 tools/respell.py [--list]     at the top of the repository; --list only prints the names

Words are in snake case, types and modules in camel case. A definition, lemma, field, constructor or bound name
of specs/ or proofs/, or a ghost member of src/, that is spelled `likeThis` or `like-this` becomes `like_this`,
there and in the contracts, and a fact `Like-this` becomes `LikeThis`.
Names of src/, of the library, and those that Rattle makes from the code (goals, steps) are left alone.
Names that would fall together with another name get the one in APART.
"""
import glob
import re
import subprocess
import sys
from pathlib import Path

KIT = Path(subprocess.run(["rt", "doc"], capture_output=True, text=True, check=True).stdout.strip()).parent / "rattle"
WORD = r"[A-Za-z_][A-Za-z0-9_'·-]*"
# names that would meet another one in snake case
APART = {
    "bit-and": "bit_and_lem",
    "bit-or": "bit_or_lem",
    "bit-xor": "bit_xor_lem",
    "in-range": "in_range_lem",
    "is-of": "is_of_lem",
    "value-at": "value_at_lem",
    "readBack": "back_path",
    "stateCount": "states_counted",
    "smallAt": "small_number",
    "wideAt": "wide_number",
    "withinLine": "place_in_line",
    "sortBy": "sort_of_byte",
    "ofKind": "is_of_kind",
    "Up-to": "NumberedUpTo",
}
# names that mean one thing in these crates and another one in the rest
APART_IN = {
    "placeAt": ("byte_place", ("text", "formula", "predictor", "trials")),
}


def bare(text):
    return re.sub(r"--.*", "", text)


def heads(text):
    """What a file of antt defines: at its head, in a `where`, as a field or as a constructor."""
    found = set()
    for line in bare(text).split("\n"):
        m = re.match(r"\s*(?:abbrev\s+)?(?:pub\s+)?(?:unfoldable\s+)?(" + WORD + r")\s*:\s", line)
        if m:
            found.add(m.group(1))
        m = re.match(r"\s*unfoldable\s+pub\s+(" + WORD + r")\s*:\s", line)
        if m:
            found.add(m.group(1))
        m = re.match(r"\s*(?:abbrev\s+)?(?:pub\s+)?(?:data|record)\s+(" + WORD + ")", line)
        if m:
            found.add(m.group(1))
    return found


def snake(name):
    if name[0].isupper():
        return re.sub(r"-(\w)", lambda m: m.group(1).upper(), name)
    out = re.sub(r"(?<=[a-z0-9])([A-Z])", lambda m: "_" + m.group(1).lower(), name)
    return out.replace("-", "_")


def own_files():
    for kind in ("specs", "proofs"):
        yield from sorted(glob.glob(f"crates/*/{kind}/**/*.antt", recursive=True))


def is_answer(path):
    return Path(path).name in ("Answers.antt", "Invariants.antt", "Choices.antt", "Proof.antt")


def names():
    defined, made, used = set(), set(), set()
    for path in own_files():
        text = Path(path).read_text(encoding="utf8")
        used |= set(re.findall(WORD, bare(text)))
        made |= set(re.findall(r"\bgoal\.(" + WORD + ")", text))
        for m in re.finditer(r"^use \S*\.(?:Goals|Given)\S*\.\{([^}]*)\}", text, re.M):
            made |= set(re.findall(WORD, m.group(1)))
        if not is_answer(path):
            defined |= heads(text)
        else:
            defined |= {h for h in heads(text) if f"goal.{h}" not in text}
    source = set()
    for path in glob.glob("crates/*/src/**/*.rt", recursive=True):
        code = re.sub(r"//.*", "", Path(path).read_text(encoding="utf8"))
        source |= set(re.findall(r"[A-Za-z_]\w*", code))
        defined |= set(re.findall(r"\bghost (\w+)(?:: \{| = \{)", code))
    kit = set()
    for path in KIT.glob("*/[sp]*/**/*.antt"):
        kit |= heads(path.read_text(encoding="utf8", errors="replace"))
    # a bound name is known by its spelling alone
    defined |= {n for n in used if re.fullmatch(r"[a-z]+(?:[A-Z][A-Za-z0-9]*)+", n)}
    own = {n for n in defined - made - kit if snake(n) != n}
    return own, used, source, kit, defined


def table():
    own, used, source, kit, defined = names()
    to = {}
    for n in sorted(own):
        to[n] = APART.get(n, snake(n))
    # a lemma that would have its function's name
    for n in sorted(own):
        if "-" in n and any(m != n and to[m] == to[n] for m in own):
            to[n] += "_lem"
    back = {}
    for n, s in to.items():
        back.setdefault(s, []).append(n)
    said = []
    for s, ns in sorted(back.items()):
        if len(ns) > 1:
            said.append(f"falls together: {' '.join(ns)} -> {s}")
        elif s in used or s in defined:
            said.append(f"meets a name of this repository: {ns[0]} -> {s}")
        if s in kit:
            said.append(f"meets a name of the library: {ns[0]} -> {s}")
        if s in source and not ns[0] in source:
            said.append(f"meets a name of src/: {ns[0]} -> {s}")
    return to, said


def turned(text, to, path):
    crate = path.split("/")[1]
    to = to | {n: s for n, (s, crates) in APART_IN.items() if crate in crates}
    pattern = r"(?<![\w'·-])(" + "|".join(sorted((re.escape(n) for n in to), key=len, reverse=True)) + r")(?![\w'·-])"
    return re.sub(pattern, lambda m: to[m.group(1)], text)


def main():
    to, said = table()
    for line in said:
        print(line)
    if "--list" in sys.argv:
        for n, s in to.items():
            print(n, s)
        return
    for path in list(own_files()) + sorted(glob.glob("crates/*/src/**/*.rt", recursive=True)):
        text = Path(path).read_text(encoding="utf8")
        new = turned(text, to, path)
        if new != text:
            Path(path).write_text(new, encoding="utf8")


if __name__ == "__main__":
    main()
