#!/usr/bin/env python3
"""Prints what the clause `kept` of `run` (crates/jdl/src/lib.rt) rests on: the files of specs/ with the definitions in them that
are reached from the clause, each file behind those that it rests on, ties by the order of crates.txt and then of Lib.antt.

usage: meaning.py            prints files, lines and names, types and constants of the code, what is named of the library, and how much it is
       meaning.py --check    compares the tables and the count of docs/MEANING.md with that; status 1 where they differ

A definition is a paragraph of its file. It rests on each name in it that its file defines or imports (a bound variable or a field
that is spelled like one would count too). A lemma, whose type is an equation or a property, is carried as a proof: it changes
nothing that is meant, so it is left out and not followed.
"""
import collections
import glob
import os
import re
import sys

START = "crates/jdl/src/lib.rt"
HEADER = re.compile(r"( *)(?:abbrev )?(?:mutual|module _ (.*) where)")
HEAD = re.compile(r"( *)(?:(?:abbrev|unfoldable|pub) )*(data |record |)([^\s(){}:]+)(?: [({].*)? : (.*)")
LEMMA = re.compile(r"[^→]* ≡ [^→]*|(IsTotalOrder|IsAntisymmetric|IsProp|Decides|Discrete|¬)\b.*")
Definition = collections.namedtuple("Definition", "path name makes first last lemma words")


def read(path):
    with open(path, encoding="utf-8") as file:
        return file.read()


def words(text):
    return re.findall(r"[^\s(){}\[\],;|.]+(?:\.[^\s(){}\[\],;|]+)?", text)


def imports(path):
    """By each name that the head of a file takes from elsewhere, its module and its name there (None: the module itself)."""
    named = {}
    for module, alias, names in re.findall(r"^(?:ghost )?use (\S+?)(?: as (\w+)|\.\{(.*)\});?$", read(path), re.M):
        named.update({alias: (module, None)} if alias else {})
        for name in names.split(", "):
            there, _, here = name.partition(" as ")
            named[(here or there).strip("◌")] = (module, there.strip("◌"))
    return named


def definitions(path):
    """The definitions of a file in order. The parameters of the modules around one belong to it."""
    around, at = [], 1
    for paragraph in re.split(r"\n(?=\n)", read(path).rstrip()):
        first, at = at + paragraph.startswith("\n"), at + paragraph.count("\n") + 1
        lines = [line for line in re.sub(r'"[^"]*"|(?<!\S)--(?!\S).*', "", paragraph).split("\n") if line.strip()]
        while lines and (header := HEADER.fullmatch(lines[0])):
            around = [m for m in around if len(m[1]) < len(header[1])] + [header]
            lines.pop(0)
        head = HEAD.fullmatch(lines[0]) if lines else None
        if head and not lines[0].startswith("use "):
            around = [m for m in around if len(m[1]) < len(head[1])]
            inner = [line.split(" : ")[0].split() for line in lines[1:] if head[2] == "data " and " : " in line]
            lemma = not head[2] and "abbrev" not in lines[0] and LEMMA.fullmatch(head[4].split(" → ")[-1])
            named = words("\n".join([m[2] or "" for m in around] + lines))
            yield Definition(path, head[3], [head[3], *sum(inner, [])], first, at - 1, bool(lemma), named)


class Project:
    def __init__(self):
        self.files, self.reached, self.rests, self.library = {}, [], collections.defaultdict(set), collections.defaultdict(set)
        self.types = {("jd_base", "Library"), ("jd_answer", "Status")}  # of `L.contents` and `Status.Done` in the clause
        self.constants = collections.defaultdict(set)
        self.follow(START, words(re.search(r"ensures kept \{(.*?)\}\n", read(START), re.S)[1]))

    def file(self, path):
        if path not in self.files:
            found = list(definitions(path)) if path != START else []
            self.files[path] = ({name: d for d in found for name in d.makes}, imports(path), found)
        return self.files[path]

    def follow(self, path, named):
        """What is named: a definition of the same file, one of another, a type of the code, or what the library has."""
        made, imported, _ = self.file(path)
        for first, _, rest in (word.partition(".") for word in named):
            if first in made:
                self.reach(path, made[first])
            elif first in imported:
                module, name = imported[first]
                got = re.fullmatch(r"Rattle\.(j\w+)\.specs\.(declared\.)?([\w.]+)", module)
                if not got:
                    self.library[module].add(name or rest)
                elif got[2] and got[3].endswith(".TheConstants"):
                    self.constants[f"crates/{got[1]}/src/{got[3][:-13].replace('.', '/')}.rt"].add(name or rest)
                elif got[2]:
                    self.types.add((got[1], got[3].replace(".TheVariants", "").split(".")[-1]))
                else:
                    self.reach(path, self.file(f"crates/{got[1]}/specs/{got[3]}.antt")[0][name or rest])

    def reach(self, path, definition):
        if not definition.lemma:
            self.rests[path].update({definition.path} - {path})
            if definition not in self.reached:
                self.reached.append(definition)
                self.follow(definition.path, definition.words)

    def order(self):
        crates = [line.split(":")[0] for line in read("crates.txt").split("\n")]
        listed = {d.path: read(os.path.dirname(d.path) + "/Lib.antt").split() for d in self.reached}
        left = sorted(listed, key=lambda path: (crates.index(path.split("/")[1]), listed[path].index(os.path.basename(path)[:-5])))
        while left:
            first = next(path for path in left if not self.rests[path] & set(left))
            left.remove(first)
            yield first

    def rows(self):
        """Of each file below crates/ the lines that are reached, and the names there; then the same of each type and of each file of constants
        of the code."""
        for path in self.order():
            lines, before = [], False
            for d in self.file(path)[2]:
                if d in self.reached:
                    lines = lines[:-1] + [(lines[-1][0], d.last)] if before else lines + [(d.first, d.last)]
                before = d in self.reached
            yield path[7:], lines, " ".join(d.name for d in self.file(path)[2] if d in self.reached)
        for crate, name in sorted(self.types):
            for path in sorted(glob.glob(f"crates/{crate}/src/*.rt")):
                for got in re.finditer(rf"^pub (?:enum|struct|trait) {name}\b.*?^}}", read(path), re.M | re.S):
                    yield path[7:], [[read(path)[:end].count("\n") + 1 for end in got.span()]], name
        for path, names in sorted(self.constants.items()):
            lines, before = [], False
            for got in re.finditer(r"^(?:pub(?:\(crate\))? )?const (\w+): .*?;$", read(path), re.M | re.S):
                first, last = (read(path)[:end].count("\n") + 1 for end in got.span())
                if got[1] in names:
                    lines = lines[:-1] + [(lines[-1][0], last)] if before else lines + [(first, last)]
                before = got[1] in names
            yield path[7:], lines, " ".join(sorted(names))


def main():
    os.chdir(os.path.dirname(os.path.dirname(os.path.abspath(__file__))))
    project = Project()
    rows = [(path, ", ".join(f"{first}-{last}" for first, last in lines), names) for path, lines, names in project.rows()]
    text = [line for d in project.reached for line in read(d.path).split("\n")[d.first - 1:d.last] if line.strip()]
    count = f"{len({d.path for d in project.reached})} files, {len(project.reached)} definitions, {len(text)} lines that are not blank"
    if sys.argv[1:] == ["--check"]:
        there, page = [row[:2] for row in rows], re.findall(r"^\| `([\w/.]+)` \| ([-\d, ]+) \|", read("docs/MEANING.md"), re.M)
        wrong = [f"not in the page so: {path} {lines}" for path, lines in there if (path, lines) not in page]
        wrong += [f"in the page, but not so: {path} {lines}" for path, lines in page if (path, lines) not in there]
        wrong = wrong or [f"in another place: {old[0]}" for old, new in zip(page, there) if old != new]
        wrong += [] if count in read("docs/MEANING.md") else [f"not in the page so: {count}"]
        print("\n".join(wrong) or f"{len(rows)} rows, as they are")
        sys.exit(1 if wrong else 0)
    for path, lines, names in rows:
        print(f"{path}  {lines}\n    {names}")
    for module, names in sorted(project.library.items()):
        print(f"{module}: {' '.join(sorted(names))}")
    print(count)


if __name__ == "__main__":
    main()
