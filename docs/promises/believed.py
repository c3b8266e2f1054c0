#!/usr/bin/env python3
"""Counts what has to be believed of each promise: the definitions that its contracts rest on.

    python3 docs/promises/believed.py            prints, for each promise, the definitions that its contracts reach
    python3 docs/promises/believed.py --write    puts the generated parts into the pages beside this file
    python3 docs/promises/believed.py --check    fails where a page says something else than the crates do

A promise is a list of contracts, given by crate, function and clause. From the names in a clause the tool goes by the `use` lines of the file to
the definitions in specs/ and to the types and traits in src/, and from those on, down to the toolchain's own library, whose names it lists. It
counts the lines of each definition without blank lines, comments and `use` lines. Lemmas that stand in specs/ are checked, and so are the ghost
fields of a struct: nobody has to believe them, and they are not counted. What a struct is seen as (`impl Model`) is counted with it. TIED and HANDED_OUT below name what is read by its contract alone.

With --root PATH the crates of another tree are read.
"""
import re
import sys
from pathlib import Path

HERE = Path(__file__).resolve().parent
ROOT = Path(sys.argv[sys.argv.index("--root") + 1]).resolve() if "--root" in sys.argv else HERE.parent.parent
CRATES = ROOT / "crates"

# Each promise: its page, its name, and its contracts. A contract is (crate, function, clauses, fields): the empty clause is the one without a
# name, and `fields` names the fields of a record that the promise speaks of, where it does not speak of all. Of a definition with no such field
# only the type counts: what it comes to, the clause itself says.
PROMISES = [
    ("refusals.md", "Refusals", [
        ("trace", "Trace::open", ["opening", "noted", "rows"], {}),
        ("trace", "Trace::number", [""], {}),
        ("trace", "Trace::note", ["says", "noted", "opening", "rows", "kept"], {}),
        ("mapping", "map", ["mapped"], {}),
        ("calls", "replay", ["replays"], {}),
        ("judge", "judge", ["judged"], {}),
        ("formula", "Formula::make", ["made"], {}),
        ("automaton", "Automaton::new", ["answer"], {}),
        ("text", "read", [""], {}),
        ("events", "Refusal::number", [""], {}),
        ("mapping", "MapRefusal::number", [""], {}),
        ("replay", "ReplayRefusal::number", [""], {}),
        ("judge", "JudgeRefusal::number", [""], {}),
        ("formula", "RuleFault::number", [""], {}),
        ("automaton", "AutomatonFault::number", [""], {}),
        ("text", "TextFault::number", [""], {}),
        ("replay", "ReplayRefusal::position", [""], {}),
        ("formula", "RuleFault::place", [""], {}),
        ("text", "TextFault::place", [""], {}),
    ]),
    ("order-and-runs.md", "Order and runs", [
        ("calls", "replay", ["granted"], {}),
        ("mapping", "map", ["mapped"], {}),
    ]),
    ("formulas.md", "Formulas", [("formula", "Formula::make", ["watches"], {"meant": []})]),
    ("automata.md", "Automata", [
        ("automaton", "Automaton::next", ["rule", "cleared"], {}),
        ("automaton", "Automaton::new", ["exact"], {"meant": []}),
        ("automaton", "Automaton::can_be", ["bits", "violates"], {"meant": []}),
    ]),
    ("every-list-of-calls.md", "Every list of calls", [
        ("calls", "perform", ["performed", "keeps", "opening"], {}),
        ("calls", "perform", ["lawful"], {"Lawful": ["one", "fixed"]}),
    ]),
    ("equal-maps.md", "Equal maps", [
        ("mapping", "map", ["equal"], {}),
        ("calls", "perform", ["lawful"], {"Lawful": ["maps", "other_maps"]}),
    ]),
    ("none.md", "None", [
        ("judge", "judge", ["none"], {}),
        ("calls", "perform", ["lawful"], {"Lawful": ["none"]}),
    ]),
    ("found-and-least.md", "Found and least", [
        ("judge", "judge", ["found"], {}),
        ("calls", "perform", ["lawful"], {"Lawful": ["found"]}),
    ]),
]

# Tests that a theorem ties to the relation that they decide: who reads the theorem and the relation need not read the test. By the test's crate,
# module and name, the theorem's contract.
TIED = {
    ("order", "Tests", "may_follow"): ("order", "tests", [""], {"Decided": ["follows"]}),
}

# What public calls hand out, by their contracts: of these only the type counts, whatever they are made of.
HANDED_OUT = {
    ("trace", "opening_of"): "by `Trace::open` it is what the trace was opened with, and `Trace::void`, `threads` and `starts` hand it out",
    ("trace", "noted_of"): "by `Trace::note` it grows by each event that is accepted, and `Trace::events` hands it out",
    ("trace", "Trace"): "",
}

LIBRARY = ("Rattle.std.", "Prim.")
NAME = re.compile(r"[^\s(){}\[\],;.:\"`|@]+")
RUST_NAME = re.compile(r"[A-Za-z_][A-Za-z_0-9]*")


def code(text):
    """The text with its comments blanked out, lines kept."""
    return re.sub(r"(^|(?<=\s))(--|//).*", "", text, flags=re.M)


class Item:
    """A definition: where it stands, what it is, and the names in it."""

    def __init__(self, crate, path, line, name, sort, body):
        self.crate, self.path, self.line, self.name, self.sort = crate, path, line, name, sort
        self.body = [row for row in body if row.strip()]

    @property
    def file(self):
        return f"crates/{self.path.relative_to(CRATES)}"

    @property
    def where(self):
        return f"{self.file}:{self.line}"

    def says(self):
        """The comment right above it, or else its type."""
        rows, said = self.path.read_text().split("\n"), []
        for row in reversed(rows[: self.line - 1]):
            if row.startswith("#["):
                continue
            m = re.match(r"^(?:--|//) ?(.*)$", row)
            if not m:
                break
            said.insert(0, m.group(1))
        head = re.match(r"^.*? : (.*)$", self.body[0])
        return " ".join(said) or (f"`{head.group(1)}`" if head and self.sort in ("abbrev", "unfoldable") else "")

    def text(self, fields=()):
        """The definition as it stands, comments in it included; of a record, its head and these fields, where some are named."""
        rows = self.path.read_text().split("\n")[self.line - 1 :]
        for n, row in enumerate(rows):
            if n and (row.startswith("}") if self.path.suffix == ".rt" else not row.strip()):
                rows = rows[: n + row.startswith("}")]
                break
        while rows and rows[-1].startswith(("--", "//")):
            rows.pop()
        if fields:
            kept, comment, wanted = rows[:1], [], False
            for row in rows[1:]:
                m = re.match(r"^  pub (\S+) :", row)
                if row.strip().startswith("--"):
                    comment, wanted = comment + [row], False
                    continue
                wanted = m.group(1) in fields if m else wanted
                kept, comment = kept + (comment + [row] if wanted else []), []
            rows = kept
        return "\n".join(rows)


class File:
    """A file: what its `use` lines bring in, and its items."""

    def __init__(self, path):
        self.path = path
        self.crate = path.relative_to(CRATES).parts[0]
        self.text = code(path.read_text())
        self.names, self.aliases = {}, {}
        for m in re.finditer(r"^ *(?:ghost )?(?:pub )?use ([^;{\n]+?(?:::)?)(?:\.?\{([^}]*)\})?(?: as (\S+?))?;?$", self.text, flags=re.M):
            module, names, alias = m.group(1).strip(), m.group(2), m.group(3)
            if names is not None:
                for part in names.split(","):
                    old, _, new = part.strip().partition(" as ")
                    if old:
                        self.names[new or old] = (module, old)
            elif "::" in module:
                old = module.split("::")[-1]
                self.names[alias or old] = (module, old)
            elif alias:
                self.aliases[alias] = module


class Spec(File):
    """A file of specs/."""

    HEAD = re.compile(r"^(?:(abbrev|unfoldable) )?(?:(pub) )?(?:(record|data) )?([^\s:{}()=]+)(?=[ :])")

    def __init__(self, path):
        super().__init__(path)
        self.items, self.cases = {}, {}
        rows, starts = self.text.split("\n"), []
        for n, row in enumerate(rows):
            m = self.HEAD.match(row)
            if not m or row.startswith(("use ", "pub mod ", "unfolding ")):
                continue
            keyword, pub, sort, name = m.groups()
            if keyword or pub or sort or re.match(rf"{re.escape(name)} :", row):
                starts.append((n, name, sort or keyword or ("lemma" if pub else "plain")))
        for k, (n, name, sort) in enumerate(starts):
            end = starts[k + 1][0] if k + 1 < len(starts) else len(rows)
            self.items[name] = Item(self.crate, path, n + 1, name, sort, rows[n:end])
            if sort == "data":
                for row in rows[n + 1:end]:
                    m = re.match(r"^  ([^:]+?) :", row)
                    for case in m.group(1).split() if m else []:
                        self.cases[case] = self.items[name]


class Source(File):
    """A file of src/: its types and traits, and the clauses of its functions."""

    def __init__(self, path):
        super().__init__(path)
        self.items, self.clauses = {}, {}
        rows, owner, function, model = self.text.split("\n"), None, None, None
        for n, row in enumerate(rows):
            m = re.match(r"^(?:pub(?:\(crate\))? )?(struct|enum|trait) ([A-Za-z0-9_]+)", row)
            if m:
                body = [row]
                if not row.rstrip().endswith(("}", ";")):
                    for later in rows[n + 1:]:
                        body.append(later)
                        if later.startswith("}"):
                            break
                if m.group(1) == "struct":
                    body = [b for b in body if not b.strip().startswith("ghost ")]
                self.items[m.group(2)] = Item(self.crate, path, n + 1, m.group(2), m.group(1), body)
            m = re.match(r"^impl Model for ([A-Za-z0-9_]+)", row)
            model = m.group(1) if m else (None if row.startswith("}") else model)
            if model in self.items and row.strip().startswith(("ghost view ", "ghost Value ")):
                # what the type is seen as in contracts
                self.items[model].body.append(row)
            m = re.match(r"^(?:pub )?impl(?:<[^>]*>)? (?:\S+ for )?([A-Za-z0-9_]+)", row)
            owner = m.group(1) if m else (None if row.startswith("}") else owner)
            m = re.match(r"^\s*(?:pub(?:\(crate\))? )?fn ([a-z0-9_]+)", row)
            if m:
                function = f"{owner}::{m.group(1)}" if owner and row.startswith(" ") else m.group(1)
            m = re.match(r"^\s*ensures (?:([A-Za-z0-9_]+) )?\{(.*)\};?$", row)
            if m and function:
                self.clauses[function, m.group(1) or ""] = (n + 1, m.group(2).strip(), row.strip())


class Repository:
    def __init__(self):
        self.specs, self.sources = {}, {}
        for path in sorted(CRATES.glob("*/specs/**/*.antt")):
            crate = path.relative_to(CRATES).parts[0]
            module = ".".join(path.relative_to(CRATES / crate / "specs").with_suffix("").parts)
            self.specs[crate, module] = Spec(path)
        for path in sorted(CRATES.glob("*/src/**/*.rt")):
            self.sources.setdefault(path.relative_to(CRATES).parts[0], []).append(Source(path))

    def type_of(self, crate, name):
        for source in self.sources.get(crate, []):
            if name in source.items:
                return source, source.items[name]
        return None

    def lookup(self, module, name, crate):
        """What a name of a module is: (file, item), or 'library', or None."""
        if "::" in module:
            first = module.split("::")[0]
            return "library" if first == "std" else self.type_of(first if first in self.sources else crate, name)
        if module.startswith(LIBRARY):
            return "library"
        m = re.match(r"^Rattle\.([a-z_]+)\.(specs|proofs)\.(.*)$", module)
        if not m:
            return None
        crate, kind, rest = m.groups()
        if kind == "proofs":
            return None
        if rest.startswith("declared."):
            parts = rest.removesuffix(".TheVariants").split(".")
            return self.type_of(crate, parts[-1])
        spec = self.specs.get((crate, rest))
        if spec is None and (crate, rest.rsplit(".", 1)[0]) in self.specs:
            # the cases of a data type, named by its path
            spec = self.specs[crate, rest.rsplit(".", 1)[0]]
        if spec is None:
            return None
        item = spec.items.get(name) or spec.cases.get(name)
        return (spec, item) if item else None

    def clause(self, crate, function, clause):
        """The file of a clause, its line, what it says, and the whole line."""
        for source in self.sources.get(crate, []):
            if (function, clause) in source.clauses:
                return (source, *source.clauses[function, clause])
        sys.exit(f"no clause '{clause}' of {function} in crates/{crate}/src")

    def resolve(self, file, name, before):
        """The definition that a name in a file stands for."""
        if before in file.aliases:
            return self.lookup(file.aliases[before], name, file.crate)
        if name in file.items:
            return file, file.items[name]
        if name in getattr(file, "cases", {}):
            return file, file.cases[name]
        if name in file.names:
            module, old = file.names[name]
            return self.lookup(module, old, file.crate)
        return None

    def uses(self, file, body, item=None):
        """The definitions that the lines speak of, in their order, and the names of the library."""
        text = "\n".join(body)
        bound = binders(text, item) if isinstance(file, Spec) else set()
        found, library = [], []
        for m in NAME.finditer(text):
            for name, start in parts_of(m, isinstance(file, Spec)):
                before = text[:start]
                alias = None
                if before.endswith("."):
                    # a case of an aliased type, or the trait in `M.Monitor.meaning`; else it is a field
                    alias = (re.search(r"([^\s(){}\[\],;.]+)\.$", before) or [None, None])[1]
                    if alias not in file.aliases:
                        alias = None
                        if isinstance(file, Spec) or not name[0].isupper():
                            continue
                elif name in bound:
                    continue
                hit = self.resolve(file, name, alias)
                if hit == "library":
                    library.append(name)
                elif hit and hit[1] is not item:
                    found.append(hit)
        for module, names in ((v[0], k) for k, v in file.names.items()):
            if module.startswith(LIBRARY) and (f" {names.strip('◌')} " in text if names.startswith("◌") else names == "[]" and names in text):
                library.append(names)
        return found, library


def parts_of(m, spec):
    """The names in a token: of src/ also those of Rust in it."""
    token, start = m.group(0), m.start()
    if spec:
        return [(token, start)]
    return [(token, start)] + [(x.group(0), start + x.start()) for x in RUST_NAME.finditer(token) if x.group(0) != token]


def binders(text, item):
    """The names that an item binds itself, so that they stand for nothing else there."""
    bound = set()
    for m in re.finditer(r"[({]([^(){}:,.;=]+) : ", text):
        bound.update(m.group(1).split())
    for m in re.finditer(r"λ ([^.]*)\.", text):
        bound.update(re.findall(r"[^\s()]+", re.sub(r":[^)]*", "", m.group(1))))
    for m in re.finditer(r"let (\S+)", text):
        bound.add(m.group(1))
    for m in re.finditer(r"^\s*pub (\S+) :", text, flags=re.M):
        bound.add(m.group(1))
    for m in re.finditer(r"[{;]\s*([^\s{};=]+) = ", text):
        bound.add(m.group(1))
    for m in re.finditer(r"^\s+([^\s{};=]+) = ", text, flags=re.M):
        bound.add(m.group(1))
    if item:
        for m in re.finditer(rf"^{re.escape(item.name)} ([^=]*) =", text, flags=re.M):
            bound.update(x for x in re.findall(r"[^\s(),]+", m.group(1)) if x[0].islower())
        bound.discard(item.name)
    return bound


class Reach:
    """What contracts reach."""

    def __init__(self, repository, contracts):
        self.items, self.lemmas, self.roots, self.tied, self.library = [], [], [], [], set()
        seen, queue = {}, []

        def enter(contract):
            crate, function, clauses, fields = contract
            for clause in clauses:
                source, line, body, row = repository.clause(crate, function, clause)
                self.roots.append((crate, function, clause, source.path, row))
                queue.append((source, [body], None, fields))

        for contract in contracts:
            enter(contract)
        own = len(self.roots)
        while queue:
            file, body, item, fields = queue.pop(0)
            found, library = repository.uses(file, body, item)
            self.library.update(library)
            for file, item in found:
                tie = TIED.get((item.crate, item.path.stem, item.name))
                if tie and item.path.parent.name == "specs":
                    if item not in self.tied:
                        self.tied.append(item)
                        enter(tie)
                    continue
                body = part_of(item, fields.get(item.name, [] if (item.crate, item.name) in HANDED_OUT else None))
                rows = seen.setdefault(item, set())
                if rows.issuperset(body):
                    continue
                if not rows:
                    (self.lemmas if item.sort == "lemma" else self.items).append(item)
                rows.update(body)
                if item.sort != "lemma":
                    queue.append((file, body, item, fields))
        self.ties, self.roots = self.roots[own:], self.roots[:own]
        # how many lines of each are spoken of
        self.counted = {i: sum(row in seen[i] for row in i.body) for i in self.items}
        self.total = sum(self.counted.values())


def part_of(item, fields):
    """The lines of a definition that a promise speaks of: its head and these fields."""
    if fields is None:
        return item.body
    body, wanted = item.body[:1], False
    for row in item.body[1:]:
        m = re.match(r"^  pub (\S+) :", row)
        wanted = m.group(1) in fields if m else wanted
        if wanted:
            body.append(row)
    return body


def named(contract):
    crate, function, clauses, fields = contract
    of = "".join(f", field{'s' * (len(v) > 1)} {' and '.join(f'`{f}`' for f in v)}" for v in fields.values() if v)
    names = [f"`{c}`" for c in clauses if c]
    return f"`{crate}::{function}`" + (f" ({', '.join(names)}{of})" if names or of else "")


def clauses_part(reach):
    """The clauses in full."""
    out = []
    for crate, function, clause, path, row in reach.roots:
        out.append(f"`{function}` in `crates/{path.relative_to(CRATES)}`" + (f", clause `{clause}`:" if clause else ":"))
        out.append("")
        out.append(f"    {row}")
        out.append("")
    return "\n".join(out).rstrip()


def count_part(repository, contracts, reach):
    """How much has to be believed, and the definitions one by one."""
    out = [f"**{len(reach.items)} definitions, {reach.total} lines.**"]
    if len(contracts) > 1:
        out += ["", "| contract | definitions | lines |", "|---|---|---|"]
        for contract in contracts:
            one = Reach(repository, [contract])
            out.append(f"| {named(contract)} | {len(one.items)} | {one.total} |")
        out += ["", "A definition that several of them rest on is counted once in the total."]
    for item in reach.items:
        calls = HANDED_OUT.get((item.crate, item.name))
        if calls:
            out += ["", f"Of `{item.name}` only the type is counted: {calls}."]
    for name in sorted({k for _, _, _, fields in contracts for k, v in fields.items() if not v}):
        out += ["", f"Of `{name}` only the type is counted: what it comes to, the clauses say."]
    for item in reach.tied:
        crate, function, clause, path, row = reach.ties[reach.tied.index(item)]
        out += ["", f"Not counted: the test `{item.name}` in `{item.file}`, and what it computes with. `{crate}::laws::{function}` proves that it decides a relation, which is counted."]
    out += ["", "| definition | file | lines | what its comment says |", "|---|---|---|---|"]
    for i in reach.items:
        out.append(f"| `{i.name}` | `{i.file}` | {reach.counted[i]} | {i.says().replace('|', chr(92) + '|')} |")
    if reach.lemmas:
        out += ["", "Lemmas in specs/, which are checked: " + ", ".join(f"`{i.name}` (`{i.file}`)" for i in reach.lemmas) + "."]
    out += ["", "From the toolchain's library: " + ", ".join(f"`{n}`" for n in sorted(reach.library)) + "."]
    return "\n".join(out)


def quote_part(repository, words):
    """A definition in full, by crate, module and name, or these fields of it."""
    crate, module, name, *fields = words
    files = [f for (c, _), f in repository.specs.items() if c == crate] + repository.sources.get(crate, [])
    found = sorted((f.path.stem != module, f.items[name].where, f.items[name]) for f in files if name in f.items)
    if not found:
        sys.exit(f"crate {crate} has no {name}, which a page quotes")
    item = found[0][2]
    return f"`{item.file}`:\n\n" + "\n".join(f"    {row}".rstrip() for row in item.text(fields).split("\n"))


def index_part(repository):
    out = ["| promise | contract: lines to be believed of it alone | definitions | lines to be believed |", "|---|---|---|---|"]
    for page, title, contracts in PROMISES:
        reach = Reach(repository, contracts)
        shown = "; ".join(f"{named(c)}: {Reach(repository, [c]).total}" for c in contracts if not re.search("::(number|place|position)$", c[1]))
        out.append(f"| [{title}]({page}) | {shown} | {len(reach.items)} | {reach.total} |")
    union = Reach(repository, [c for _, _, contracts in PROMISES for c in contracts])
    out.append(f"| all of them together | | {len(union.items)} | {union.total} |")
    return "\n".join(out)


PART = re.compile(r"<!-- (clauses|count|index|quote [^>]*?) -->\n.*?<!-- end -->", flags=re.S)


def filled(repository, text, contracts):
    """The page with its generated parts made anew."""
    reach = Reach(repository, contracts) if contracts else None

    def part(m):
        what = m.group(1).split()
        made = {
            "clauses": lambda: clauses_part(reach),
            "count": lambda: count_part(repository, contracts, reach),
            "index": lambda: index_part(repository),
            "quote": lambda: quote_part(repository, what[1:]),
        }[what[0]]()
        return f"<!-- {m.group(1)} -->\n{made}\n<!-- end -->"

    return PART.sub(part, text)


def main():
    repository, failed = Repository(), False
    for page, title, contracts in [*PROMISES, ("README.md", "", None)]:
        path = HERE / page
        if "--write" in sys.argv or "--check" in sys.argv:
            text = path.read_text()
            made = filled(repository, text, contracts)
            if "--write" in sys.argv:
                path.write_text(made)
            elif made != text:
                failed = True
                print(f"{page}: differs from the crates")
                for old, new in zip(text.split("\n"), made.split("\n")):
                    if old != new:
                        print(f"  page:   {old}\n  crates: {new}")
                        break
        elif contracts:
            reach = Reach(repository, contracts)
            print(f"\n{title} ({page}): {len(reach.items)} definitions, {reach.total} lines")
            for contract in contracts:
                one = Reach(repository, [contract])
                print(f"  {named(contract)}: {len(one.items)} definitions, {one.total} lines")
            for i in reach.items:
                print(f"  {reach.counted[i]:4} {i.name:22} {i.where}")
            for i in reach.tied:
                print(f"  tied {i.name:22} {i.where}")
            for i in reach.lemmas:
                print(f"  lemma {i.name:21} {i.where}")
            print(f"  library: {' '.join(sorted(reach.library))}")
    if "--check" in sys.argv:
        print("the pages differ from the crates; --write puts them right" if failed else "the pages say what the crates do")
    sys.exit(failed)


main()
