#!/usr/bin/env python3
"""Checks a crate while libraries below it are not built: stand-ins take their place.

usage: standins.py ROOT CRATE OUT [--built DIR] [--kit DIR] [--full] [FLAG..]

ROOT     a checkout: crates.txt, and crates/NAME with src, specs and proofs; nothing is written there
CRATE    the crate of it that is checked
OUT      a folder for the stand-ins (OUT/crates) and for what checks keep (OUT/incremental)
--built  another checkout, from which the libraries are taken that are built there (in crates/NAME/out) and whose files, and
         those of all crates below, are byte for byte those of ROOT
--kit    the folder with bin/rattle, rlibs and logic_built; without it, where the command `rattle` stands
--full   without --allow-holes
FLAG     of `rattle check`, as --only FN

A stand-in has the types of a library, its specs, and its public functions and the methods of its traits and impls with their
clauses, each with the body `loop {}` and a proof that is a hole. Private functions are left out, and imports that only they
or bodies need. Of its proofs it has the files of lemmas that files outside of it import, and what these import in turn. Under --allow-holes a function that rests on
holes of stand-ins alone is checked to its end, and reads `depends on a hole in ..`. Only files whose text has changed are
written again, so a later check takes over what an earlier one kept.
"""
import os
import re
import shutil
import subprocess
import sys

FUNCTION = re.compile(r"( *)(pub(?:\([^)]*\))? )?(?:const )?(?:unsafe )?(?:extern \"C\" )?fn (\w+)")
BLOCK = re.compile(r"(?:pub(?:\([^)]*\))? )?(?:unsafe )?(impl|trait|mod)\b(?!.*;$)")
TYPE = re.compile(r"(?:pub(?:\([^)]*\))? )?(?:struct|enum|union) (\w+)")
USE = re.compile(r"(?:pub(?:\([^)]*\))? )?use ")
CLAUSE = re.compile(r" *(requires|ensures|ghost)\b")
ATTRIBUTE = re.compile(r" *#\[")
PROOF = """use Rattle.{crate}.proofs.{path}.Statement.{{statement}}

pub {name}_spec : {{M : Type 1}} → statement M
{name}_spec = ?
"""
FUNCTION_FILES = {"Answers", "Invariants", "Proof"}


def read(path):
    with open(path, encoding="utf-8") as file:
        return file.read()


def crate_table(root):
    """The crates of a checkout, each with what its line lists."""
    table = {}
    for line in read(f"{root}/crates.txt").splitlines():
        head, colon, listed = line.split("#")[0].partition(":")
        if colon:
            table[head.split()[0]] = listed.split()
    return table


def files_below(folder, parts=("src", "specs", "proofs")):
    """The files of a crate, by their paths in its folder."""
    found = {}
    for part in parts:
        for base, _, names in os.walk(f"{folder}/{part}"):
            for name in names:
                path = os.path.join(base, name)
                found[os.path.relpath(path, folder)] = path
    return found


def all_below(table, crate):
    """The crates below one, lowest first."""
    order = []

    def visit(name):
        for other in table[name]:
            if other in table and other not in order:
                visit(other)
        if name not in order:
            order.append(name)

    visit(crate)
    return order[:-1]


class BuiltLibraries:
    """Which libraries of another checkout serve for those of the root."""

    def __init__(self, root, built, table):
        self.root, self.built, self.table = root, built, table
        self.other = crate_table(built) if built else {}
        self.known = {}

    def has(self, name):
        if name not in self.known:
            self.known[name] = self.is_same(name)
        return self.known[name]

    def is_same(self, name):
        if name not in self.other or sorted(self.table[name]) != sorted(self.other[name]):
            return False
        rlib = f"{self.built}/crates/{name}/out/rlib/{name}.rlib"
        if not (os.path.exists(f"{rlib}/format") and os.path.exists(f"{rlib}/toolchain/checked.a")):
            return False
        if not all(self.has(other) for other in self.table[name] if other in self.table):
            return False
        ours, theirs = files_below(f"{self.root}/crates/{name}"), files_below(f"{self.built}/crates/{name}")
        if ours.keys() != theirs.keys():
            return False
        return all(open(ours[key], "rb").read() == open(theirs[key], "rb").read() for key in ours)


def depth_of(line):
    """How many more brackets a line opens than it closes."""
    code = re.sub(r"'(?:\\.|[()\[\]{}])'|\"(?:\\.|[^\"\\])*\"|//.*", "", line)
    return sum(code.count(mark) for mark in "([{") - sum(code.count(mark) for mark in ")]}")


class Item:
    """A run of lines of a source file: a function, the head or the end of a block, a `use` or `ghost use`, or else plain."""

    def __init__(self, kind, lines, attributes=(), name=None, head=None, public=False, has_body=False, block=None):
        self.kind, self.lines, self.attributes = kind, lines, list(attributes)
        self.name, self.head, self.public, self.has_body, self.block = name, head, public, has_body, block


def parse(text):
    """The items of a source file in the layout of `rt fmt`, without comments."""
    lines, items, attributes, at, block = text.split("\n"), [], [], 0, None
    while at < len(lines):
        line = lines[at]
        function = FUNCTION.match(line)
        if re.match(r" *//(?!!)", line) or line.startswith("//!"):
            at += 1
        elif ATTRIBUTE.match(line):
            depth = 0
            while True:
                attributes.append(lines[at])
                depth += depth_of(lines[at])
                at += 1
                if depth == 0:
                    break
        elif function and len(function[1]) == (4 if block else 0):
            indentation, visible, name = function.groups()
            head, depth, body = [], 0, None
            while body is None:
                line = lines[at]
                bare = line.rstrip()
                at += 1
                if depth == 0 and bare in (f"{indentation}{{", f"{indentation}{{}}"):
                    body = bare.endswith("{}")
                elif bare.endswith((" {", " {}")) and not CLAUSE.match(line) and depth + depth_of(bare.rstrip("{}")) == 0:
                    head.append(re.sub(r" \{\}?$", "", bare))
                    body = bare.endswith("{}")
                else:
                    head.append(bare)
                    depth += depth_of(line)
                    if depth == 0 and bare.endswith(";"):
                        break
            if body is False:
                while lines[at] != f"{indentation}}}":
                    at += 1
                at += 1
            items.append(Item("function", [], attributes, name, head, visible == "pub ", body is not None, block))
            attributes = []
        elif block is None and BLOCK.match(line):
            head = []
            while True:
                head.append(lines[at])
                at += 1
                if head[-1].rstrip().endswith(("{", "{}")):
                    break
            text_of = " ".join(part.strip() for part in head)
            item = Item("block", head, attributes, block=text_of)
            items.append(item)
            attributes = []
            if not text_of.endswith("{}"):
                block = item
        elif block is not None and line == "}":
            items.append(Item("end", [line], block=block))
            block, attributes, at = None, [], at + 1
        elif USE.match(line) or line.startswith("ghost use "):
            kind, taken = "use" if USE.match(line) else "ghost use", []
            while True:
                taken.append(lines[at])
                at += 1
                if taken[-1].rstrip().endswith(";"):
                    break
            items.append(Item(kind, [" ".join(part.strip() for part in taken)], attributes))
            attributes = []
        else:
            items.append(Item("plain", [line], attributes, block=block))
            attributes, at = [], at + 1
    return items


def split_outside(text, mark):
    """Splits a type at a mark outside of its brackets."""
    parts, depth, start, at = [], 0, 0, 0
    while at < len(text):
        if text.startswith("->", at):
            at += 2
            continue
        if text[at] in "<([{":
            depth += 1
        elif text[at] in ">)]}":
            depth -= 1
        elif depth == 0 and text.startswith(mark, at):
            parts.append(text[start:at])
            at += len(mark)
            start = at
            continue
        at += 1
    return parts + [text[start:]]


def closing(text):
    """Where the bracket closes that a text begins with."""
    depth, at = 0, 0
    while at < len(text):
        if text.startswith("->", at):
            at += 2
            continue
        depth += (text[at] in "<([{") - (text[at] in ">)]}")
        at += 1
        if depth == 0:
            return at
    return at


def words(text, own):
    """The words of a type in the name of an impl, without the impl's own parameters."""
    text = text.strip()
    if not text or text.startswith("'") or text in own or text == "_":
        return ""
    if text.startswith("&"):
        rest = re.sub(r"^&('\w+ )?", "", text)
        if rest.startswith("mut "):
            return "RefMut" + words(rest[4:], own)
        return "Ref" + words(rest, own)
    if text.startswith("["):
        parts = split_outside(text[1:-1], "; ")
        return ("Slice" if len(parts) == 1 else "Array") + words(parts[0], own)
    if text.startswith("("):
        parts = [part for part in split_outside(text[1:-1], ",") if part.strip()]
        return f"Tuple{len(parts)}" + "".join(words(part, own) for part in parts) if parts else "Unit"
    if text.startswith("dyn "):
        return "Dyn" + words(text[4:], own)
    head, angle, arguments = text.partition("<")
    head = head.split("::")[-1]
    if head in own:
        head = ""
    parts = split_outside(arguments[:-1], ",") if angle else []
    return head[:1].upper() + head[1:] + "".join(words(part, own) for part in parts)


def impl_parts(head):
    """The trait, or None, the type, and the parameters of an `impl`."""
    text = re.sub(r"^(unsafe )?impl", "", head).rstrip("{} ").strip()
    own = set()
    if text.startswith("<"):
        end = closing(text)
        for parameter in split_outside(text[1:end - 1], ","):
            own.add(re.sub(r"^const ", "", parameter.strip()).split(":")[0].strip())
        text = text[end:].strip()
    text = split_outside(text, " where ")[0].strip()
    parts = split_outside(text, " for ")
    return (parts[0].strip(), parts[1].strip(), own) if len(parts) == 2 else (None, parts[0].strip(), own)


def is_named(name, text):
    """Whether a text has a name that an import brings, or the parts of an operator in it."""
    last = name.split(" as ")[-1].strip()
    return all(part in text for part in re.split(r"[◌\s]+", last))


def needed_import(line, text):
    """An import without the names that the rest of its file does not have; None if it has none of them."""
    many = re.match(r"((?:ghost )?use )([\w:.+-]+?)(::|\.)\{([^{}]*)\};$", line)
    one = re.match(r"(?:ghost )?use [\w:.+-]*?([\w-]+)( as \w+)?;$", line)
    if many:
        head, path, joint, names = many.groups()
        last = re.split(r"::|\.", path)[-1]
        kept = [name.strip() for name in names.split(",") if name.strip() and is_named(last if name.strip() == "self" else name, text)]
        return f"{head}{path}{joint}{{{', '.join(kept)}}};" if kept else None
    if one and not is_named(one[1] + (one[2] or ""), text):
        return None
    return line


class Library:
    """A library's sources, parsed, and what its stand-in has of its proofs."""

    def __init__(self, root, name):
        self.name, self.folder = name, f"{root}/crates/{name}"
        self.files = files_below(self.folder)
        self.modules, self.types = {}, {}
        for key, path in self.files.items():
            if key.startswith("src/") and key.endswith(".rt"):
                module = tuple(key[4:-3].split("/"))
                if module[-1] in ("lib", "mod", "main"):
                    module = module[:-1]
                self.modules[module] = (key, parse(read(path)))
        for module, (_, items) in self.modules.items():
            for item in items:
                found = item.kind == "plain" and TYPE.match(item.lines[0])
                if found:
                    self.types.setdefault(found[1], []).append(module)

    def place(self, module, item):
        """The folder of proofs of a function, as names."""
        if item.block is None:
            return module + (item.name,)
        head = item.block.block
        if re.search(r"\btrait \w", head.split("<")[0]):
            return module + (re.search(r"\btrait (\w+)", head)[1], item.name)
        if re.match(r"(pub(\([^)]*\))? )?mod ", head):
            return module + (re.search(r"\bmod (\w+)", head)[1], item.name)
        trait, self_type, own = impl_parts(head)
        if trait is not None and trait != "Drop":
            return module + (words(self_type, own) + words(trait, own), item.name)
        base = re.sub(r"<.*", "", self_type).split("::")[-1]
        homes = self.types.get(base, [module])
        return (module if module in homes else homes[0]) + (base, item.name)

    def is_kept(self, module, item, cited):
        """Whether the stand-in has the function: a public one, a trait's, or one whose theorem a file that is kept cites."""
        if item.public:
            return True
        if item.block is not None:
            head = item.block.block
            if re.search(r"\btrait \w", head.split("<")[0]):
                return True
            if re.match(r"(unsafe )?impl\b", head) and impl_parts(head)[0] is not None:
                return True
        place = ".".join(self.place(module, item))
        return any(path == place or path.startswith(place + ".") for path in cited)

    def removed_names(self, cited):
        return {
            (module, item.name)
            for module, (_, items) in self.modules.items()
            for item in items
            if item.kind == "function" and item.block is None and not self.is_kept(module, item, cited)
        }

    def module_of(self, module, path):
        """The module of this crate that a path in another leads to, or None."""
        first, *rest = path.split("::")
        if first == "crate":
            place = tuple(rest)
        elif first == "self":
            place = module + tuple(rest)
        elif first == "super":
            place = module[:-1] + tuple(rest)
        else:
            place = module + (first, *rest)
        return place if place in self.modules else None

    def pruned_use(self, module, line, removed):
        """A `use` without the functions that are left out; what it brought of them is left out too."""
        many = re.match(r"((?:pub(?:\([^)]*\))? )?use )([\w:]+)::\{([^{}]*)\};$", line)
        one = re.match(r"((?:pub(?:\([^)]*\))? )?use )([\w:]+)::(\w+(?: as \w+)?);$", line)
        if not many and not one:
            return line
        head, path, names = (many or one).groups()
        source = self.module_of(module, path)
        if source is None:
            return line
        kept = []
        for name in [part.strip() for part in names.split(",") if part.strip()]:
            if (source, name.split(" as ")[0]) in removed:
                removed.add((module, name.split(" as ")[-1]))
            else:
                kept.append(name)
        if not kept:
            return None
        return f"{head}{path}::{kept[0]};" if one else f"{head}{path}::{{{', '.join(kept)}}};"

    def sources(self, cited):
        """The texts of the stand-in's sources and of its functions' proofs, by their paths."""
        removed, texts = self.removed_names(cited), {}
        while True:
            before = len(removed)
            for module, (_, items) in self.modules.items():
                for item in items:
                    if item.kind == "use":
                        self.pruned_use(module, item.lines[0], removed)
            if len(removed) == before:
                break
        for module, (key, items) in self.modules.items():
            lines, imports, attributes = [], [], []
            for item in items:
                if item.kind == "function":
                    self.add_function(module, item, cited, lines, texts)
                elif item.kind == "use":
                    imports.append((item.attributes, self.pruned_use(module, item.lines[0], removed)))
                elif item.kind == "ghost use":
                    imports.append((item.attributes, item.lines[0]))
                elif item.lines[0].startswith("#!["):
                    attributes += item.lines
                else:
                    lines += item.attributes + item.lines
            text = "\n".join(lines)
            text = re.sub(r"(?m)^impl\b[^;{}]*\{\n\s*\}\n", lambda m: m[0] if " for " in m[0] else "", text)
            head = list(attributes)
            for above, line in imports:
                line = line and needed_import(line, text)
                if line is not None:
                    head += above + [line]
            texts[key] = re.sub(r"\n{3,}", "\n\n", "\n".join(head) + "\n\n" + text).strip("\n") + "\n"
        return texts

    def add_function(self, module, item, cited, lines, texts):
        if not self.is_kept(module, item, cited):
            return
        indentation = " " * (4 if item.block else 0)
        lines += [line for line in item.attributes if not re.match(r" *#\[(cycle|tactic|inline)\b", line)]
        lines += item.head
        if item.has_body:
            lines += [f"{indentation}{{", f"{indentation}    loop {{}}", f"{indentation}}}"]
            place = self.place(module, item)
            texts[f"proofs/{'/'.join(place)}/Proof.antt"] = PROOF.format(crate=self.name, path=".".join(place), name=item.name)
        lines.append("")

    def lemma_file(self, path):
        """The file of lemmas that a path below the crate's proofs leads to, or None."""
        names = path.split(".")
        for count in range(len(names), 0, -1):
            key = f"proofs/{'/'.join(names[:count])}.antt"
            if key in self.files and names[count - 1] not in FUNCTION_FILES | {"Lib"}:
                return key
        return None


def cited_proofs(text):
    """The paths below crates' proofs that a text cites, as pairs of a crate and a path."""
    found = set()
    for crate, path in re.findall(r"Rattle\.(\w+)\.proofs\.([\w.+]+)", text):
        found.add((crate, path.rstrip(".")))
    for crate, path in re.findall(r"\b(\w+)::proofs::([\w:]+)", text):
        found.add((crate, path.replace("::", ".")))
    return found


def write_where_changed(folder, texts):
    """Makes a folder's files those of the texts; a file that has its text already is left as it is."""
    for key, path in files_below(folder).items():
        if key not in texts:
            os.remove(path)
    for key, text in texts.items():
        path = f"{folder}/{key}"
        if not os.path.exists(path) or read(path) != text:
            os.makedirs(os.path.dirname(path), exist_ok=True)
            with open(path, "w", encoding="utf-8") as file:
                file.write(text)


def write_standins(root, crate, missing, out):
    """Writes the stand-ins, the highest first, since those below have what its files import."""
    wanted = {}

    def note(text):
        for name, path in cited_proofs(text):
            wanted.setdefault(name, set()).add(path)

    for path in files_below(f"{root}/crates/{crate}").values():
        note(read(path))
    for name in reversed(missing):
        library = Library(root, name)
        cited, kept, texts = set(wanted.get(name, ())), set(), {}
        pending = sorted(cited)
        while pending:
            key = library.lemma_file(pending.pop())
            while key is not None and key not in kept:
                kept.add(key)
                text = read(library.files[key])
                note(text)
                more = {path for other, path in cited_proofs(text) if other == name} - cited
                cited |= more
                pending += sorted(more)
                folder = os.path.dirname(key)
                key = f"{folder}.antt" if f"{folder}.antt" in library.files else None
        texts.update(library.sources(cited))
        for key, path in library.files.items():
            if key.startswith("specs/") or key in kept or key == "proofs/Lib.antt":
                text = read(path)
                if key.startswith("proofs/"):
                    folder = "proofs" if key == "proofs/Lib.antt" else key[:-5]
                    text = re.sub(
                        r"(?m)^(pub )?mod (\w+)\n?",
                        lambda m: m[0] if f"{folder}/{m[2]}.antt" in kept else "",
                        text,
                    )
                texts[key] = text
        for text in texts.values():
            note(text)
        write_where_changed(f"{out}/crates/{name}", texts)
    for name in os.listdir(f"{out}/crates"):
        if name not in missing:
            shutil.rmtree(f"{out}/crates/{name}")


def main():
    arguments = sys.argv[1:]

    def option(name):
        if name not in arguments:
            return None
        at = arguments.index(name)
        value = os.path.abspath(arguments[at + 1])
        del arguments[at:at + 2]
        return value

    built, kit = option("--built"), option("--kit")
    if len(arguments) < 3:
        sys.exit(__doc__)
    root, crate, out, flags = os.path.abspath(arguments[0]), arguments[1], os.path.abspath(arguments[2]), arguments[3:]
    if kit is None:
        kit = os.path.dirname(os.path.dirname(os.path.realpath(shutil.which("rattle"))))
    table = crate_table(root)
    libraries = BuiltLibraries(root, built, table)
    below = all_below(table, crate)
    missing = [name for name in below if not libraries.has(name)]
    os.makedirs(f"{out}/crates", exist_ok=True)
    write_standins(root, crate, missing, out)
    print("stand-ins:", " ".join(missing) or "none", flush=True)

    over = [crate, *missing]
    folder = f"{root}/crates/{crate}"
    main_file = "src/main.rt" if os.path.exists(f"{folder}/src/main.rt") else "src/lib.rt"
    call = [f"{kit}/bin/rattle", "check", "--crate-name", crate, main_file]
    of_kit = {"core", "std"} | {name for user in over for name in table[user] if name not in table}
    for name in sorted(of_kit):
        call += ["--extern", f"{name}={kit}/rlibs/{name}.rlib"]
    call += ["-L", f"dependency={kit}/rlibs"]
    for name in below:
        if name in missing:
            continue
        rlibs = f"{built}/crates/{name}/out/rlib"
        if any(name in table[user] for user in over):
            call += ["--extern", f"{name}={rlibs}/{name}.rlib"]
        call += ["-L", f"dependency={rlibs}"]
    for name in missing:
        uses = dict.fromkeys(["core", "std", *table[name]])
        call += ["--lib", f"{name}:{','.join(uses)}={out}/crates/{name}/src/lib.rt"]
    call += ["--antt-project", f"{kit}/rattle/logic/antt-project.json", "--logic-built", f"{kit}/logic_built"]
    call += ["--incremental", f"{out}/incremental", "--links", f"{crate}="]
    if "--full" in flags:
        flags.remove("--full")
    elif "--allow-holes" not in flags:
        call.append("--allow-holes")
    sys.exit(subprocess.run([*call, *flags], cwd=folder).returncode)


if __name__ == "__main__":
    main()
