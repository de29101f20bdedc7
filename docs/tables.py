#!/usr/bin/env python3
"""Writes the parsing table of a grammar and the sets that show that it is LL(1).

usage: tables.py CRATE

The crate has src/kinds.rt (the kinds of tokens, from 1), src/names.rt (the names, from 0) and specs/Productions.antt, a list of
`produces names.NAME (SYMBOL ∷ .. ∷ [])` and `produces_unless names.NAME kinds.KIND (..)`, each on a line, where a SYMBOL is
`Token kinds.KIND` or `Name names.NAME`; STARTS of src/names.rt has the names that a whole text may be of, and EXPRESSION is the name whose
levels are passed in runs. This writes src/rules.rt, src/rows.rt, src/runs.rt, src/run_symbols.rt and specs/Sets.antt. The checker computes
whether the table passes, its runs too, and whether it has the productions, so nothing rests on this script.
"""
import re
import sys

EXPRESSION = "EXPRESSION"
SHORTEST_RUN = 3


def constants(path):
    found = re.findall(r"pub const (\w+): u8 = (\d+);", open(path).read())
    return {name: int(value) for name, value in found}


def productions(path):
    found = []
    for line in open(path):
        got = re.match(r"\s*(?:∷ )?produces(?:_unless)? names\.(\w+) (?:kinds\.(\w+) )?(?:\((.*) ∷ \[\]\)|\[\])\s*$", line)
        if got:
            body = re.findall(r"(Token|Name) \w+\.(\w+)", got[3] or "")
            found.append((got[1], body, got[2]))
    return found


def is_name(symbol):
    return symbol[0] == "Name"


class Grammar:
    def __init__(self, crate):
        self.kinds = constants(f"{crate}/src/kinds.rt")
        self.names = constants(f"{crate}/src/names.rt")
        self.starts = re.search(r"STARTS: \[u8; \d+\] = \[(.*?)\];", open(f"{crate}/src/names.rt").read(), re.S)[1].replace(",", " ").split()
        self.rules = productions(f"{crate}/specs/Productions.antt")
        self.nullable = self.least(set(), lambda found, a, b: all(is_name(s) and s[1] in found for s in b))
        self.first = {a: set() for a in self.names}
        self.follow = {a: set() for a in self.names}
        for a in self.starts:
            self.follow[a].add("")
        self.close(self.add_first)
        self.close(self.add_follow)
        self.rows = self.choices()

    def least(self, found, holds):
        """The names of which some production holds, by repetition."""
        while True:
            more = {a for a, b, _ in self.rules if holds(found, a, b)} | found
            if more == found:
                return found
            found = more

    def close(self, step):
        while any([step(a, b) for a, b, _ in self.rules]):
            pass

    def begins(self, symbols, behind):
        kinds = set()
        for symbol in symbols:
            if not is_name(symbol):
                return kinds | {symbol[1]}
            kinds |= self.first[symbol[1]]
            if symbol[1] not in self.nullable:
                return kinds
        return kinds | behind

    def add_first(self, a, b):
        before = len(self.first[a])
        self.first[a] |= self.begins(b, set())
        return len(self.first[a]) > before

    def add_follow(self, a, b):
        grown = False
        for at, symbol in enumerate(b):
            if is_name(symbol):
                kinds = self.follow[symbol[1]]
                before = len(kinds)
                kinds |= self.begins(b[at + 1 :], self.follow[a])
                grown = grown or len(kinds) > before
        return grown

    def choices(self):
        rows = {}
        for number, (a, b, unless) in enumerate(self.rules):
            for kind in self.begins(b, self.follow[a]) - {unless}:
                if (a, kind) in rows:
                    sys.exit(f"conflict of {a} before {kind or 'the end'}: productions {rows[a, kind]} and {number}")
                rows[a, kind] = number
        return rows

    def behind(self, name):
        """By name that stands in a body of `name` or of names below: what is to come behind it, up to the first symbol that always has a
        token, where it was first found."""
        found = {name: []}
        names = [name]
        for a in names:
            for head, body, _ in self.rules:
                for at, symbol in enumerate(body if head == a else []):
                    if not is_name(symbol) or symbol[1] in found:
                        continue
                    more = []
                    for s in body[at + 1 :] + [("Name", b) for b in found[a]]:
                        if not is_name(s):
                            break
                        more.append(s[1])
                        if s[1] not in self.nullable:
                            break
                    found[symbol[1]] = more
                    names.append(symbol[1])
        return found

    def run(self, name, kind, behind):
        """The productions that are used one after the other for a name and what is to come behind it, with the symbols that were to come
        before and behind them, the next one first."""
        order, before, stack = [], [("Name", name)], [("Name", name)]
        behind = [("Name", a) for a in behind]
        while True:
            if not stack and behind and (behind[0][1], kind) in self.rows:
                before.append(behind[0])
                stack.append(behind.pop(0))
            if not stack or not is_name(stack[0]) or order and stack[0][1] == EXPRESSION:
                return order, before, stack
            number = self.rows.get((stack[0][1], kind))
            if number is None:
                return [], before, stack
            order.append(number + 1)
            stack = self.rules[number][1] + stack[1:]

    def runs(self):
        """By name and kind the runs of at least so many productions."""
        behind = self.behind(EXPRESSION)
        found = {(a, kind): self.run(a, kind, behind.get(a, [])) for a, kind in self.rows}
        return {at: run for at, run in found.items() if len(run[0]) >= SHORTEST_RUN}

    def weights(self):
        """By name one more than what may be looked at in a body before a token is."""
        weights = {a: 0 for a in self.names}
        for _ in range(10 * len(self.names)):
            before = dict(weights)
            for a, b, _ in self.rules:
                lead = 0
                for symbol in b:
                    if not is_name(symbol):
                        break
                    lead += weights[symbol[1]]
                    if symbol[1] not in self.nullable:
                        break
                weights[a] = max(weights[a], lead + 1)
            if weights == before:
                return weights
        sys.exit("the grammar is left recursive")

    def witnesses(self):
        """By name a production of names of lower ranks, and its rank."""
        ranks, witnesses = {}, {}
        for rank in range(len(self.names) + 1):
            new = {}
            for number, (a, b, unless) in enumerate(self.rules):
                if a not in ranks and a not in new and not unless and all(not is_name(s) or s[1] in ranks for s in b):
                    new[a] = number
            for a, number in new.items():
                ranks[a], witnesses[a] = rank, number
        missing = set(self.names) - set(ranks)
        if missing:
            sys.exit(f"no tokens are spelled by {missing}")
        return witnesses, ranks


def write_rules(crate, g):
    lines = [
        "//! The productions of specs/Productions as a table. Written by docs/tables.py from it.",
        "",
        "use jd_grammar::Rule;",
        "use jd_grammar::Symbol::{self, Name, Token};",
        "",
        "/// What stands for the names, one production after the other.",
        f"pub(crate) const SYMBOLS: [Symbol; {sum(len(b) for _, b, _ in g.rules)}] = [",
    ]
    for _, b, _ in g.rules:
        lines += [f"    {s[0]}({(g.names if is_name(s) else g.kinds)[s[1]]})," for s in b]
    lines += ["];", "", "/// The productions.", f"pub(crate) const RULES: [Rule; {len(g.rules)}] = ["]
    at = 0
    for a, b, unless in g.rules:
        lines.append(f"    ({g.names[a]}, {g.kinds[unless] if unless else 255}, {at}, {at + len(b)}),")
        at += len(b)
    lines += ["];"]
    open(f"{crate}/src/rules.rt", "w").write("\n".join(lines) + "\n")


def write_rows(crate, g, width, by_number, number_of, weights, run_numbers):
    lines = [
        "//! Which production of specs/Productions, and which run, is used for a name before a kind of token. Written by docs/tables.py from it.",
        "",
        "/// By name and kind one more than the number of the production to use, or 0.",
        f"pub(crate) const ROWS: [u16; {width * len(g.names)}] = [",
    ]
    for a in by_number:
        row = [0] * width
        for (b, kind), number in g.rows.items():
            if b == a:
                row[number_of[kind]] = number + 1
        lines.append("    " + ", ".join(map(str, row)) + ",")
    lines += ["];", "", "/// By name, what it weighs.", f"pub(crate) const WEIGHTS: [u8; {len(g.names)}] = ["]
    lines.append("    " + ", ".join(str(weights[a]) for a in by_number) + ",")
    lines += ["];", "", "/// By name, whether each tree of it has a token.", f"pub(crate) const SOLID: [bool; {len(g.names)}] = ["]
    lines.append("    " + ", ".join("false" if a in g.nullable else "true" for a in by_number) + ",")
    lines += ["];", "", "/// How many kinds there are, the end among them.", f"pub(crate) const WIDTH: u8 = {width};"]
    lines += ["", "/// By name and kind one more than the number of the run to use, or 0."]
    lines += [f"pub(crate) const RUN_ROWS: [u16; {width * len(g.names)}] = ["]
    for a in range(len(by_number)):
        lines.append("    " + ", ".join(str(run_numbers.get((a, kind), 0)) for kind in range(width)) + ",")
    lines += ["];"]
    open(f"{crate}/src/rows.rt", "w").write("\n".join(lines) + "\n")


def placed(parts, part):
    """Where the part lies among all, behind which it is put if it does not."""
    for at in range(len(parts) - len(part) + 1):
        if parts[at : at + len(part)] == part:
            return at
    parts += part
    return len(parts) - len(part)


def write_runs(crate, g, number_of):
    """The number of each run and one more, by its name and kind."""
    runs = sorted(g.runs().items(), key=lambda run: -len(run[1][0]))
    orders, symbols, places = [], [], {}
    for (a, kind), (order, _, _) in runs:
        at = placed(orders, order)
        places[g.names[a], number_of[kind]] = [at, at + len(order)]
    for side in 1, 2:
        for (a, kind), run in sorted(runs, key=lambda run: -len(run[1][side])):
            at = placed(symbols, run[side][::-1])
            places[g.names[a], number_of[kind]] += [at, at + len(run[side])]
    listed = sorted(places)
    lines = [
        "//! Runs of productions that are used for a name before a kind of token. Written by docs/tables.py.",
        "",
        "use jd_grammar::Run;",
        "",
        "/// The runs.",
        f"pub(crate) const RUNS: [Run; {len(listed)}] = [",
    ]
    lines += [f"    ({', '.join(map(str, [kind] + places[a, kind]))})," for a, kind in listed]
    lines += ["];", "", "/// Their productions, each as one more than its number."]
    lines += [f"pub(crate) const RUN_ORDER: [u16; {len(orders)}] = [", "    " + ", ".join(map(str, orders)) + ",", "];"]
    open(f"{crate}/src/runs.rt", "w").write("\n".join(lines) + "\n")
    lines = [
        "//! What is to come before and behind runs of productions, the next symbol last. Written by docs/tables.py.",
        "",
        "use jd_grammar::Symbol::{self, Name, Token};",
        "",
        "/// What is to come before and behind them.",
        f"pub(crate) const RUN_SYMBOLS: [Symbol; {len(symbols)}] = [",
    ]
    lines += [f"    {s[0]}({(g.names if is_name(s) else g.kinds)[s[1]]})," for s in symbols]
    lines += ["];"]
    open(f"{crate}/src/run_symbols.rt", "w").write("\n".join(lines) + "\n")
    print(f"{len(listed)} runs of {sum(len(run[0]) for _, run in runs)} productions")
    return {at: number + 1 for number, at in enumerate(listed)}


def write(crate):
    g = Grammar(crate)
    width = len(g.kinds) + 1
    by_number = sorted(g.names, key=g.names.get)
    number_of = {"": 0, **g.kinds}
    weights = g.weights()
    witnesses, ranks = g.witnesses()
    write_rules(crate, g)
    run_numbers = write_runs(crate, g, number_of)
    write_rows(crate, g, width, by_number, number_of, weights, run_numbers)

    def mask(kinds):
        return sum(1 << number_of[kind] for kind in kinds)

    def listed(values):
        return " ∷ ".join(map(str, values)) + " ∷ []"

    lines = [
        "-- The sets that show that the table is LL(1). Written by docs/tables.py.",
        "use Rattle.std.specs.Prelude.{[], ◌∷◌}",
        "use Rattle.jd_grammar.specs.Tests.{Sets}",
        "",
        "abbrev pub sets : Sets",
        "sets = record {",
        f"  nullable = {sum(1 << g.names[a] for a in g.nullable)};",
        f"  first = {listed(mask(g.first[a]) for a in by_number)};",
        f"  follow = {listed(mask(g.follow[a]) for a in by_number)};",
        f"  witnesses = {listed(witnesses[a] for a in by_number)};",
        f"  ranks = {listed(ranks[a] for a in by_number)};",
        "}",
    ]
    open(f"{crate}/specs/Sets.antt", "w").write("\n".join(lines) + "\n")
    print(f"{len(g.names)} names, {len(g.kinds)} kinds, {len(g.rules)} productions, {len(g.rows)} entries")


write(sys.argv[1])
