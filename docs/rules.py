#!/usr/bin/env python3
"""Writes the tables of docs/RULES.md from the rows of rules (`jd_tac_logic`, specs/Logic; `jd_tac_int`, specs/Integers).

usage: rules.py [--check]

Run it at the top of a checkout. With `--check` nothing is written, and the status is 1 where a table would be another.
"""
import re
import sys

ROWS = "crates/{}/specs/{}.antt"
TABLES = [("logic", "jd_tac_logic", "Logic", "logic_rows"), ("integers", "jd_tac_int", "Integers", "integer_rows")]
TOKEN = re.compile(r'"[^"]*"|∷|\[\]|[(){};,=]|[^\s(){};,"]+')
CONNECTIVES = {"AndOf": "and", "OrOf": "or", "ImpliesOf": "imp", "IffOf": "iff"}
COMPARISONS = {"EqualOf": "eq", "LessOf": "lt", "LessOrEqualOf": "le"}
QUANTIFIERS = {"ForallOf": "forall", "ExistsOf": "exists"}
ARITHMETIC = {"Add": "add", "Subtract": "sub", "Multiply": "mul", "Divide": "div", "Remainder": "mod"}
KINDS = {"OnLeft": "left", "OnRight": "right", "AtFormula": "formula", "AtTerm": "term", "Free": "none"}


def read(path):
    with open(path, encoding="utf-8") as file:
        return file.read()


def definitions(text):
    """Each name that is defined in one line, or in lines that are further in: its parameters and its value's tokens."""
    found = {}
    text = re.sub(r"^ *--.*\n", "", text, flags=re.M)
    for match in re.finditer(r"^abbrev (?:pub )?(\S+) :.*\n\1((?: \S+)*?) =((?:.*\n)(?:[ ]+.*\n)*)", text, re.M):
        found[match.group(1)] = (match.group(2).split(), TOKEN.findall(match.group(3)))
    return found


class Reader:
    """A value's tokens, read as applications, lists, pairs and records."""

    def __init__(self, tokens):
        self.tokens, self.at = tokens, 0

    def peek(self):
        return self.tokens[self.at] if self.at < len(self.tokens) else None

    def take(self):
        self.at += 1
        return self.tokens[self.at - 1]

    def expression(self):
        parts = [self.atom()]
        while self.peek() not in (None, ")", "∷", ",", ";", "}"):
            parts.append(self.atom())
        head = ("apply", parts[0], parts[1:]) if len(parts) > 1 else parts[0]
        if self.peek() == "∷":
            self.take()
            return ("cons", head, self.expression())
        return head

    def atom(self):
        token = self.take()
        if token == "(":
            first = self.expression()
            if self.peek() == ",":
                self.take()
                first = ("pair", first, self.expression())
            self.take()
            return first
        if token == "record":
            self.take()
            fields = {}
            while self.peek() != "}":
                name = self.take()
                self.take()
                fields[name] = self.expression()
                if self.peek() == ";":
                    self.take()
            self.take()
            return ("record", fields)
        return ("nil",) if token == "[]" else ("name", token)


def value(tree, known, names):
    kind = tree[0]
    if kind == "nil":
        return []
    if kind == "cons":
        return [value(tree[1], known, names)] + value(tree[2], known, names)
    if kind == "pair":
        return (value(tree[1], known, names), value(tree[2], known, names))
    if kind == "record":
        return {name: value(part, known, names) for name, part in tree[1].items()}
    if kind == "apply":
        return applied(tree[1][1], [value(part, known, names) for part in tree[2]], known)
    name = tree[1]
    if name in names:
        return names[name]
    return name.strip('"') if name.startswith('"') else applied(name, [], known)


def applied(name, arguments, known):
    if name == "codes":
        return arguments[0]
    if name.isdigit():
        return int(name)
    if name in known and len(known[name][0]) == len(arguments):
        parameters, tokens = known[name]
        return value(Reader(tokens).expression(), known, dict(zip(parameters, arguments)))
    return (name.split(".")[-1], *arguments)


def sort(s):
    return s[1] if s[0] == "SortVar" else s[1][0].removesuffix("Sort")


def number(z):
    return str(z[1] if z[0] == "pos" else -1 - z[1])


def variable(name, plain):
    """A variable, in brackets where it is computed."""
    return name if name in plain else f"[{name}]"


def term(t):
    head = t[0]
    if head == "AnyTerm":
        return t[1]
    if head == "TermOf":
        return t[2]
    if head == "LiteralVar":
        return variable(t[1], "mn")
    if head == "Put":
        return f"{t[1]}[{term(t[2])}]"
    if head == "Constant":
        return t[1][1]
    if head == "Given":
        given = t[1]
        return number(given[1]) if given[0] == "Number" else given[1][0] if given[0] == "Boolean" else f"%{given[1]}"
    if head == "OnePart":
        return f"({'neg' if t[1][0] == 'NegationOf' else 'wrap'} {term(t[2])})"
    if head == "Arithmetic":
        return f"({ARITHMETIC[t[1][0]]} {term(t[2])} {term(t[3])})"
    assert head == "Sum", t
    return f"(bsum {term(t[1])} {term(t[2])} {term(t[3])})"


def formula(a):
    head = a[0]
    if head == "FormulaVar":
        return variable(a[1], ["A", "B", "phi"])
    if head == "PutIn":
        return f"{a[1]}[{term(a[2])}]"
    if head in ("TrueFormula", "FalseFormula"):
        return head.removesuffix("Formula").lower()
    if head == "Not":
        return f"(not {formula(a[1])})"
    if head == "Connected":
        return f"({CONNECTIVES[a[1][0]]} {formula(a[2])} {formula(a[3])})"
    if head == "Compared":
        return f"({COMPARISONS[a[1][0]]} {term(a[2])} {term(a[3])})"
    if head == "Quantified":
        return f"({QUANTIFIERS[a[1][0]]} {sort(a[2])} {formula(a[3])})"
    assert head == "Tested", a
    return f"(inInt {term(a[2])})"


def pattern(p):
    return formula(p[1]) if p[0] == "FormulaFind" else term(p[1])


def inst(v):
    return f"{'new' if v['form'][0] == 'NewConstant' else 'inst'} {v['name']}"


def condition(c):
    if c[0] == "SteadyIn":
        return f"{c[1]} steady in {c[2]}"
    if c[0] == "AtLeastZero":
        return f"{c[1]} at least 0"
    return "%0 alone free in A" if c[0] == "OnlyIndex" else None


def premise(n):
    if n["replace"] != ("None",):
        return pattern(n["replace"][1])
    mark = "+" if n["keep"] == ("true",) else ""
    left, right = (", ".join(formula(a) for a in side) for side in (n["left"], n["right"]))
    return f"{left and mark + left} ==> {right and mark * (not left) + right}".strip()


def line(r):
    asked = [f"assumes {formula(a)} {a_side[0].lower()}" for a_side, a in r["assumes"]]
    asked += [inst(v) for v in r["insts"]] + [c for c in map(condition, r["conds"]) if c]
    find = "" if r["find"] == ("None",) else f"`{pattern(r['find'][1])}`"
    goals = "closed" if not r["goals"] else " <br> ".join(f"`{premise(n)}`" for n in r["goals"])
    return f"| `{r['name']}` | {KINDS[r['kind'][0]]} | {find} | {'; '.join(asked)} | {goals} |"


def table(crate, file, rows):
    known = definitions(read(ROWS.format("jd_taclets", "Writing")))
    known.update(definitions(read(ROWS.format(crate, file))))
    return "\n".join(line(r) for r in applied(rows, [], known))


def main():
    page = read("docs/RULES.md")
    made = page
    for name, crate, file, rows in TABLES:
        begin, end = f"<!-- {name} -->\n", f"<!-- end of {name} -->"
        head = "| rule | acts on | finds | asks for | gives |\n|---|---|---|---|---|\n"
        before, _, rest = made.partition(begin)
        made = before + begin + head + table(crate, file, rows) + "\n" + end + rest.partition(end)[2]
    if "--check" in sys.argv[1:]:
        sys.exit(made != page)
    with open("docs/RULES.md", "w", encoding="utf-8") as file:
        file.write(made)


main()
