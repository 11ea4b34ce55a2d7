"""Which definition, type or module of the kit a name of the sources means, and what is reached from it.

A module is a file of a crate's specs/, written crate.Module; a contract stands in a file of src/, written crate.file."""
import collections
import pathlib
import re

import antt

# kind: "definition", "contract", "type" (declared in src/), "kit" (a module of the kit) or "proof" (nothing may reach one)
Node = collections.namedtuple("Node", "kind module name")
PRELUDE = set("⊥ ¬ absurd Unit tt Dec yes no ⊔".split())  # open in every file
KIT = set("std core".split())  # the kit's crates that a path Rattle.CRATE.. may name; any other crate must be one of the repository
EXPORTED = re.compile(r'^pub extern "C" fn (\w+)', re.M)


def title(node):
    return node.module if node.kind == "kit" else f"{node.module}.{node.name}"


class Missing(Exception):
    """A name that is not there."""


class Module:
    """A file with its definitions and imports. `place` is the crate and the path below specs/ or src/."""

    def __init__(self, place, file, definitions, imports):
        self.place, self.file = place, file
        self.definitions = {d.name: d for d in definitions}
        self.constructors = {name: d.name for d in definitions for name in d.constructors}
        self.names = {i.here: i for i in imports if i.name not in ("", "*")}
        self.modules = {i.here: i for i in imports if i.name == ""}
        self.globs = [i for i in imports if i.name == "*"]
        self.operators = {}
        for name in [*self.definitions, *self.constructors, *self.names]:
            for part in name.split("◌") if "◌" in name and not name.startswith("«") else ():
                self.operators.setdefault(part, name)

    def __str__(self):
        return ".".join(self.place)


class Sources:
    """The crates of a repository; a file is read when a name of it is first asked for."""

    def __init__(self, root):
        self.root, self.read = pathlib.Path(root), {}

    # ---- files

    def relative(self, file):
        return str(file.relative_to(self.root / "crates"))

    def module(self, place):
        """The module of specs/ at a place: (crate, names ..); the crate alone is its Lib.antt."""
        if place not in self.read:
            crate, *path = place
            file = self.root.joinpath("crates", crate, "specs", *(path or ["Lib"])).with_suffix(".antt")
            if not file.is_file():
                raise Missing(f"no module {'.'.join(place)}: there is no {self.relative(file)}")
            lines = antt.code(file.read_text())
            try:
                self.read[place] = Module(place, file, antt.definitions(lines), antt.imports(lines))
            except antt.Unread as error:
                raise Missing(f"{self.relative(file)}: {error}") from error
        return self.read[place]

    def modules(self):
        """The modules of all specs/."""
        for file in sorted(self.root.glob("crates/*/specs/**/*.antt")):
            crate, _, *path = file.relative_to(self.root / "crates").with_suffix("").parts
            yield self.module((crate, *path))

    def contracts(self, path):
        """A file of src/ as a module, whose definitions are the contracts of its exported functions."""
        file = self.root / path
        if not path.startswith("crates/") or not file.is_file():
            raise Missing(f"no file {path}")
        crate = file.relative_to(self.root / "crates").parts[0]
        place = (crate, file.stem)
        if ("contracts", place) not in self.read:
            text = re.sub(r"//.*", "", file.read_text())
            ghost = re.findall(r"^ghost use [^;]*;", text, re.M)
            self.read["contracts", place] = Module(place, file, list(exported(text)), antt.imports(ghost))
        return self.read["contracts", place]

    def exporting(self):
        """The files of src/ that export functions."""
        files = sorted(self.root.glob("crates/*/src/**/*.rt"))
        return [str(f.relative_to(self.root)) for f in files if EXPORTED.search(f.read_text())]

    def type_file(self, node):
        """The file of src/ that declares a type, and the lines of its declaration."""
        crate, *path = node.module.split(".")
        file = self.root.joinpath("crates", crate, "src", *(path or ["lib"])).with_suffix(".rt")
        text = re.sub(r"//.*", "", file.read_text()) if file.is_file() else ""
        found = re.search(rf"^pub (?:struct|enum) {re.escape(node.name)}\b(?:.*;$|.*\{{\n(?:(?:\s.*)?\n)*\}}$)", text, re.M)
        if not found:
            raise Missing(f"no type {title(node)} in {self.relative(file)}")
        return file, text, [line for line in found.group(0).split("\n") if line.strip()]

    # ---- what a name means

    def absolute(self, module, path):
        """A module's path from its library on: behind a name of this file, or below this module."""
        if path[0] == "":
            return ("Rattle", module.place[0], "specs", *module.place[1:], *path[1:])
        if path[0] in module.modules and module.modules[path[0]].path != path:
            return self.absolute(module, (*module.modules[path[0]].path, *path[1:]))
        return path

    def lookup(self, path, name):
        """What a name of the module at an absolute path means."""
        if path[0] != "Rattle" or path[1] in KIT:
            return Node("kit", ".".join(path), name)
        crate, part, below = path[1], path[2], path[3:]
        if part == "proofs":
            return Node("proof", ".".join((crate, "proofs", *below)), name)
        if below[:1] == ("declared",):
            *file, type_name = (word for word in below[1:] if word != "TheVariants")
            return Node("type", ".".join((crate, *file)), type_name)
        found = self.own(self.module((crate, *below)), name, lambda i: i.passed_on)
        if not found:
            raise Missing(f"no definition {name} in {'.'.join((crate, *below))}")
        return found

    def own(self, module, name, allowed=lambda i: True):
        """What a name means in a module that defines or imports it; None for any other."""
        if name in module.definitions or name in module.constructors:
            kind = module.definitions[module.constructors.get(name, name)].kind
            return Node("contract" if kind == "contract" else "definition", str(module), module.constructors.get(name, name))
        if name in module.names and allowed(module.names[name]):
            found = module.names[name]
            return self.lookup(self.absolute(module, found.path), found.name)
        for glob in filter(allowed, module.globs):
            place = self.absolute(module, ("", *glob.path) if glob.path[0] != "Rattle" else glob.path)
            found = self.own(self.module((place[1], *place[3:])), name)
            if found:
                return found
        return None

    def meaning(self, module, word):
        """What a word of a module's text means: a name, a path, or a part of an operator; None for what it binds itself."""
        head, *rest = word.split(".")
        if head == "Rattle" and len(rest) > 2:
            return self.lookup((head, *rest[:-1]), rest[-1])
        found = self.own(module, head)
        if rest and rest[-1] and head in module.modules and not self.is_member(found, rest[0]):
            return self.lookup(self.absolute(module, (head, *rest[:-1])), rest[-1])
        if not found and word.strip("_◌") in module.operators:
            found = self.own(module, module.operators[word.strip("_◌")])
        return found

    def is_member(self, node, name):
        """Whether a name is a constructor of a data type."""
        return bool(node) and node.kind == "definition" and name in self.definition(node).constructors

    def is_constructor(self, module, word):
        """Whether a word in a pattern is a constructor: of ours, of a declared type, or a name of the kit."""
        found = self.meaning(module, word)
        if not found or found.kind in ("type", "kit"):
            return bool(found)
        return found.kind == "definition" and found.name != word.split(".")[-1] and self.definition(found).kind == "data"

    # ---- what is reached

    def module_of(self, node):
        place = tuple(node.module.split("."))
        return self.read["contracts", place] if node.kind == "contract" else self.module(place)

    def definition(self, node):
        return self.module_of(node).definitions[node.name]

    def references(self, node):
        """The nodes that a node names."""
        if node.kind in ("kit", "proof"):
            return set()
        if node.kind == "type":
            return self.types_in(node)
        module = self.module_of(node)
        try:
            words = antt.references_of(self.definition(node), lambda word: self.is_constructor(module, word))
            found = {self.meaning(module, word) or self.unbound(node, word) for word in words}
            return found - {node, None}
        except (antt.Unread, Missing) as error:
            raise Missing(f"{self.relative(module.file)}, {node.name}: {error}") from error

    def unbound(self, node, word):
        """What a word means that the file does not define, import or bind: the prelude's."""
        if word in PRELUDE:
            return Node("kit", "Prim", word)
        raise Missing(f"{word} is neither defined nor imported")

    def types_in(self, node):
        """The declared types that a type's fields have: of its file, or brought there by a `use`."""
        _, text, lines = self.type_file(node)
        found = set()
        for name in set(re.findall(r"\b[A-Z]\w*", "\n".join(lines))):
            if name in brought(text):
                crate, *path, its_name = brought(text)[name]
                found.add(Node("type", ".".join((node.module.split(".")[0] if crate == "crate" else crate, *path)), its_name))
            elif re.search(rf"^pub (?:struct|enum) {name}\b", text, re.M):
                found.add(Node("type", node.module, name))
        return found - {node}

    def reached(self, starts, stops=()):
        """Every node reached from the starts, with the one by which it was; what stops is not entered."""
        by = {start: None for start in starts if start not in stops}
        waiting = collections.deque(by)
        while waiting:
            node = waiting.popleft()
            for found in sorted(self.references(node) - set(stops)):
                if found not in by:
                    by[found] = node
                    waiting.append(found)
        return by

    def find(self, text):
        """The node of a name given as crate.Module.name."""
        crate, *path = text.split(".")
        if len(path) > 1 and (self.root / "crates" / crate).is_dir():
            try:
                found = self.own(self.module((crate, *path[:-1])), path[-1], lambda i: i.passed_on)
            except Missing:
                found = None
            if found:
                return found
        there = [f"{module}.{path[-1]}" for module in self.modules() if path[-1] in module.definitions] if path else []
        raise Missing(f"no definition {text}" + (f"; there is {', '.join(there)}" if there else ""))


def brought(text):
    """What the `use` lines of a file of src/ bring there: each name with its path."""
    found = {}
    for path, group, one in re.findall(r"^(?:pub )?use ((?:\w+::)+)(?:\{([^}]*)\}|(\w[^;{]*));", text, re.M):
        for part in filter(None, (part.strip() for part in (group or one).split(","))):
            name, _, here = part.partition(" as ")
            words = (path + name).split("::")
            found[here or words[-1]] = words
    return found


def exported(text):
    """The contracts of the exported functions of a file of src/."""
    starts = list(EXPORTED.finditer(text))
    for start, end in zip(starts, [*(s.start() for s in starts[1:]), len(text)]):
        function = text[start.end() : end]
        parameters = re.findall(r"(\w+)\s*:", balanced(function, function.index("(")))
        clauses = [balanced(function, m.end() - 1) for m in re.finditer(r"\b(?:requires|ensures)(?: \w+)?\s*\{", function)]
        bound = [*parameters, "result"]
        yield antt.Definition(start.group(1), "contract", [clause.strip().split("\n") for clause in clauses], parameters=bound)


def balanced(text, start):
    """What stands between the bracket at `start` and the one that closes it."""
    depth = 0
    for at in range(start, len(text)):
        depth += (text[at] in "({[") - (text[at] in ")}]")
        if depth == 0:
            return text[start + 1 : at]
    raise Missing("a bracket is left open")
