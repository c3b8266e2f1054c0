#!/usr/bin/env python3
"""Lists the places in src/ where an older form may stand, by point, as docs/DESIGN-PASS.md counts them.

    python3 tools/places.py [--all] [POINT ..]

A place is kept if a comment line that says so (`Stays ..`) stands in the eight lines above it; such
places are marked `kept`. Without --all only the numbers are printed. It reads text, and so it lists
what looks like an older form, and may miss one: docs/DESIGN-PASS.md says what reading found besides.
"""
import re
import sys
from collections import defaultdict
from pathlib import Path

CRATES = Path(__file__).resolve().parent.parent / "crates"


def sources():
    return [(path, path.read_text().split("\n")) for path in sorted(CRATES.glob("*/src/**/*.rt"))]


def by_lines(pattern):
    found = re.compile(pattern)

    def places(path, lines):
        for number, line in enumerate(lines, 1):
            code = line.split("//")[0]
            if found.search(code) and not code.lstrip().startswith(("ghost", "requires", "ensures", "use ")):
                yield number, line.strip()

    return places


def items(lines, word):
    """The items that begin with this word: the first line, and the lines of the body."""
    for number, line in enumerate(lines, 1):
        if re.match(rf"\s*(pub(\([a-z]+\))? )?(const )?{word} \w+", line) and line.rstrip().endswith("{"):
            indent = len(line) - len(line.lstrip())
            body = []
            for inner in lines[number:]:
                if inner.startswith(" " * indent + "}"):
                    break
                body.append(inner)
            yield number, line.strip(), body


def option_shapes(path, lines):
    """Enums with one case that holds something, the others holding nothing."""
    for number, head, body in items(lines, "enum"):
        cases = [c.strip() for c in body if re.match(r"\s+[A-Z]\w*\b.*,$", c)]
        holding = [c for c in cases if "(" in c]
        if len(holding) == 1 and len(cases) > 1:
            yield number, head


def flagged(path, lines):
    """Structs with a flag beside other fields."""
    for number, head, body in items(lines, "struct"):
        fields = [f for f in body if re.match(r"\s+(pub(\([a-z]+\))? )?\w+: ", f) and "ghost" not in f]
        if len(fields) > 1 and any(re.search(r": bool,", f) for f in fields):
            yield number, head


def laws(path, lines):
    """Functions that compute nothing and answer the number 0."""
    for number, line in enumerate(lines, 1):
        if re.search(r"fn \w+(<\w+>)?\(\) -> u8$", line):
            yield number, line.strip()


def array_and_length(path, lines):
    """Structs that hold an array or a lent slice beside a length, or two arrays of one length."""
    for number, head, body in items(lines, "struct"):
        arrays = re.findall(r"\w+: \[[^;]+; (\w+)\]", "\n".join(body))
        slices = re.search(r"&'a mut \[", "\n".join(body))
        length = re.search(r"\b(len|count|variables): (u8|usize)", "\n".join(body))
        if (length and (arrays or slices)) or len(arrays) != len(set(arrays)):
            yield number, head


def parallel_locals(path, lines):
    """Two arrays of one length, one made right below the other."""
    made = re.compile(r"let mut \w+ = \[.*; (\w+)\];")
    for number, line in enumerate(lines, 1):
        above = made.search(lines[number - 2]) if number > 1 else None
        here = made.search(line)
        if above and here and above.group(1) == here.group(1):
            yield number, line.strip()


def repeated(path_lines):
    """Facts that stand word for word in the clauses of three or more functions of a crate."""
    facts = defaultdict(set)
    first = {}
    for path, lines in path_lines:
        function = None
        for number, line in enumerate(lines, 1):
            head = re.search(r"fn (\w+)", line)
            if head:
                function = (path, head.group(1))
            clause = re.match(r"\s+(requires|ensures)[ \w]*\{ (.*) \}$", line)
            if clause and function:
                text = re.sub(r"\bself\.(old|now|new)\b", "self", clause.group(2))
                for fact in re.findall(r"[^()×]+ [<≤≡] [^()×]+", text):
                    key = (path.relative_to(CRATES).parts[0], fact.strip())
                    facts[key].add(function)
                    first.setdefault(key, (path, number))
    for key, functions in facts.items():
        if len(functions) >= 3:
            path, number = first[key]
            yield path, number, f"{key[1]}   (in {len(functions)} functions)"


def travelling(path_lines):
    """Two parameters that go together through three or more functions of a crate."""
    pairs = defaultdict(set)
    first = {}
    for path, lines in path_lines:
        text = "\n".join(lines)
        for function in re.finditer(r"fn (\w+)(?:<[^(]*>)?\(([^)]*(?:\([^)]*\)[^)]*)*)\)", text):
            number = text.count("\n", 0, function.start()) + 1
            params = re.findall(r"(\w+): ((?:&'?\w* ?(?:mut )?)?[\w\[\]<>; ]+)", function.group(2))
            names = [name + ": " + kind.strip() for name, kind in params]
            for i, one in enumerate(names):
                for two in names[i + 1:]:
                    key = (path.relative_to(CRATES).parts[0], one, two)
                    pairs[key].add((path, function.group(1)))
                    first.setdefault(key, (path, number))
    for key, functions in pairs.items():
        if len(functions) >= 3:
            path, number = first[key]
            yield path, number, f"{key[1]}, {key[2]}   (in {len(functions)} functions)"


POINTS = {
    "1 shapes": [option_shapes, flagged],
    "1 refusals handed on by hand": [
        by_lines(r"-> Option<\w*(Refusal|Fault)>"),
        by_lines(r"Ok\((\w+)\) => Ok\(\1\),"),
        by_lines(r"(Err\((\w+)\) => return Err\(\2\)|Err\(_\) => return None|None => return None|Err\(_\) => Err\(|Some\((\w+)\) => Err\(\3\)|\(Err\(fault\), _\)|\(_, Err\(fault\)\))"),
        by_lines(r"return Err\((why|fault)\);"),
    ],
    "1 numbers for kinds": [
        by_lines(r"\b(kind|op|comparison|outcome): u8"),
        by_lines(r"(\(u8, usize\)|-> Option<u8>)"),
        by_lines(r"\b(kind|op) (<|==|>|>=) \d"),
        by_lines(r"NO_SOURCE"),
    ],
    "1 laws that answer 0": [laws],
    "3 loops by index": [
        by_lines(r"^\s*while (?!let)"),
        by_lines(r"^\s*for \w+ in \(?[\w.() +*]*\.\."),
    ],
    "4 by hand": [
        by_lines(r"fn (number|of|same|eq|cmp|clone|fmt|action)\("),
        by_lines(r"fn of_\w+\("),
        by_lines(r"self\.\w+ == key\.\w+ &&|self\.\w+ != key\.\w+"),
    ],
    "6 buffers": [array_and_length, parallel_locals],
}
WHOLE = {"5 facts": repeated, "5 parameters": travelling}


def kept(lines, number):
    return any(re.search(r"//.*\bStays\b", line) for line in lines[max(0, number - 9):number])


def main():
    asked = [word for word in sys.argv[1:] if not word.startswith("-")]
    show = "--all" in sys.argv[1:]
    files = sources()
    text = dict(files)
    for point in list(POINTS) + list(WHOLE):
        if asked and not any(point.startswith(word) for word in asked):
            continue
        rows = []
        if point in WHOLE:
            by_crate = defaultdict(list)
            for path, lines in files:
                by_crate[path.relative_to(CRATES).parts[0]].append((path, lines))
            for crate in by_crate:
                rows += list(WHOLE[point](by_crate[crate]))
        else:
            for path, lines in files:
                seen = set()
                for places in POINTS[point]:
                    for number, line in places(path, lines):
                        if number not in seen:
                            seen.add(number)
                            rows.append((path, number, line))
        stay = [row for row in rows if kept(text[row[0]], row[1])]
        print(f"{point}: {len(rows)}, of which {len(stay)} with a line that says why they stay")
        if show:
            for path, number, line in rows:
                mark = "kept " if (path, number, line) in stay else "     "
                print(f"    {mark}{path.relative_to(CRATES)}:{number}: {line}")


main()
