"""Reads .antt files as far as names go: what a file defines and imports, and which names each definition refers to.

A file is a list of items by indentation; an item's text is a tree of words and bracketed groups. Names bound inside a definition
(patterns, binders, 'let', 'where') are no references, nor are field names: after a dot, or before '=' in a record. A form that is
not known here is an error and never passed over."""
import re

MARKS = {"pub", "abbrev", "unfoldable", "axiom"}
CLOSING = {"(": ")", "{": "}", "[": "]"}
WORD = re.compile(r'"(?:\\.|[^"\\])*"|«[^»]*»|[(){};,@]|[^\s(){};,@"«»]+')
NO_NAMES = set("λ → ↦ = : ; , | . × record elim in as where unfold Type _ ∀ @".split())


class Unread(Exception):
    """A text that this reader does not know."""


class Group:
    """What stands between two brackets."""

    def __init__(self, bracket, nodes):
        self.bracket, self.nodes = bracket, nodes


class Definition:
    """A function, record, data type, or the contract of a function, over its parameters. `around` has the headers of the modules
    that it stands in."""

    def __init__(self, name, kind, items, around=(), parameters=()):
        self.name, self.kind, self.items, self.around, self.parameters = name, kind, items, around, set(parameters)
        self.constructors = []

    def lines(self):
        return sum(len(item) for item in self.items)


# ---- text to lines, items and trees


def code(text):
    """The lines without comments, each with its indentation; blank ones are left out."""
    text = re.sub(r"\{-.*?-\}", lambda found: "\n" * found.group(0).count("\n"), text, flags=re.S)
    lines = [re.sub(r"(^|\s)--.*$", "", line).rstrip() for line in text.split("\n")]
    return [line for line in lines if line]


def indentation(line):
    return len(line) - len(line.lstrip())


def words(lines):
    for word in WORD.findall("\n".join(lines)):
        if len(word) > 1 and word.endswith("."):
            yield word[:-1]
            yield "."
        else:
            yield word


def opened(line):
    """How many more brackets a line opens than it closes."""
    return sum((word in CLOSING) - (word in CLOSING.values()) for word in words([line]))


def items(lines):
    """Splits lines into items: each begins at the indentation of the first, outside all brackets."""
    found, depth = [], 0
    for line in lines:
        if depth == 0 and (not found or indentation(line) <= indentation(lines[0])):
            found.append([])
        found[-1].append(line)
        depth += opened(line)
    return found


def tree(lines):
    """Words and groups; '[' and ']' are brackets where they stand alone."""
    stack = [Group("", [])]
    for word in words(lines):
        if word in CLOSING:
            stack.append(Group(word, []))
        elif len(stack) > 1 and word == CLOSING[stack[-1].bracket]:
            group = stack.pop()
            stack[-1].nodes.append(group)
        else:
            stack[-1].nodes.append(word)
    if len(stack) > 1:
        raise Unread(f"a bracket is left open: {lines[0].strip()}")
    return stack[0].nodes


def split(nodes, mark):
    """The parts between the words `mark` of this level."""
    parts = [[]]
    for node in nodes:
        if node == mark:
            parts.append([])
        else:
            parts[-1].append(node)
    return parts


def cut(nodes, mark):
    """What stands before the first word `mark` of this level and what after it; no second part where it is not there."""
    if mark not in nodes:
        return nodes, None
    at = nodes.index(mark)
    return nodes[:at], nodes[at + 1 :]


def leaves(nodes):
    for node in nodes:
        if isinstance(node, Group):
            yield from leaves(node.nodes)
        else:
            yield node


# ---- which names a term refers to


class References:
    """Collects the names that terms refer to. `is_constructor` says whether a name in a pattern is one, and binds nothing."""

    def __init__(self, is_constructor):
        self.is_constructor, self.names = is_constructor, set()

    def word(self, word, bound):
        if word in NO_NAMES or word.startswith((".", '"')) or word[0].isdigit():
            return
        if word.split(".")[0] not in bound:
            self.names.add(word)

    def pattern(self, nodes):
        """Names bound by a pattern; constructors in it are referred to."""
        bound = set()
        for word in leaves(nodes):
            if word in NO_NAMES or word.startswith(".") or word[0].isdigit():
                continue
            if self.is_constructor(word):
                self.names.add(word)
            else:
                bound.add(word)
        return bound

    def binder(self, nodes, bound):
        """Names bound by 'names : type', whose type is walked; None for any other nodes."""
        names, type_nodes = cut(nodes, ":")
        if type_nodes is None:
            return None
        self.walk(type_nodes, bound)
        return {word for word in names if isinstance(word, str)}

    def group(self, group, bound):
        """Walks a group; gives the names that it binds for what follows it."""
        if group.bracket == "[":
            for case in split(group.nodes, "|"):
                self.case(case, bound)
            return set()
        parts = split(group.nodes, ";")
        binders = [self.binder(part, bound) for part in parts]
        for part, names in zip(parts, binders):
            if names is None:
                self.walk(part, bound)
        return binders[0] or set() if len(parts) == 1 else set()

    def case(self, nodes, bound):
        left, right = cut(nodes, "↦")
        if right is None:
            self.walk(left, bound)
        else:
            self.walk(right, bound | self.pattern(left))

    def lambda_binders(self, nodes, bound):
        names = set()
        for node in nodes:
            if isinstance(node, Group):
                found = self.binder(node.nodes, bound | names)
                names |= self.pattern(node.nodes) if found is None else found
            else:
                names.add(node)
        return names

    def let(self, nodes, at, bound):
        """Walks 'let pattern : type = term in' that begins at `at`; gives where its body begins and the names bound there."""
        end, depth = at + 1, 0
        while end < len(nodes) and (nodes[end] != "in" or depth):
            depth += (nodes[end] in ("let", "unfold")) - (nodes[end] == "in")
            end += 1
        left, term = cut(nodes[at + 1 : end], "=")
        if term is None or end == len(nodes):
            raise Unread("a 'let' without '=' or 'in'")
        pattern, type_nodes = cut(left, ":")
        self.walk(type_nodes or [], bound)
        self.walk(term, bound)
        return end + 1, self.pattern(pattern)

    def walk(self, nodes, bound):
        """Walks a term: what a group, a λ or a 'let' binds holds to the end of these nodes."""
        at = 0
        while at < len(nodes):
            node, names = nodes[at], set()
            if isinstance(node, Group):
                names, at = self.group(node, bound), at + 1
            elif node == "λ":
                binders, body = cut(nodes[at + 1 :], ".")
                if body is None:
                    raise Unread("a λ without '.'")
                names, at = self.lambda_binders(binders, bound), len(nodes) - len(body)
            elif node == "let":
                at, names = self.let(nodes, at, bound)
            else:
                if nodes[at + 1 : at + 2] != ["="]:
                    self.word(node, bound)
                at += 1
            bound = bound | names

    def telescope(self, nodes, bound):
        """Walks parameters; gives all names bound after them. Braces without a type have levels."""
        for node in nodes:
            if isinstance(node, Group):
                names = self.binder(node.nodes, bound)
                bound = bound | (set(leaves(node.nodes)) if names is None else names)
        return bound


# ---- items to definitions


def without_marks(nodes):
    while nodes and nodes[0] in MARKS:
        nodes = nodes[1:]
    return nodes


def is_signature(nodes):
    return ":" in cut(nodes, "=")[0]


def header_end(item):
    """The number of lines up to the 'where' that ends an item's header; 0 where there is none."""
    depth = 0
    for number, line in enumerate(item, 1):
        depth += opened(line)
        if depth == 0 and line.split()[-1] == "where":
            return number
    return 0


def header(item):
    """The tree of an item up to its 'where', marks aside."""
    return without_marks(tree(item[: header_end(item)] or item))


def definitions(lines, around=()):
    """The definitions of a file's or block's lines, its `use`, `mod` and `infix` lines aside."""
    found = []
    for item in items(lines):
        head = header(item)
        if not head or head[0] in ("use", "mod", "infix", "infixl", "infixr"):
            continue
        if head[0] == "module":
            found += definitions(item[header_end(item) :], (*around, head))
        elif head[0] == "mutual":
            found += definitions(item[1:], around)
        elif head[0] in ("record", "data"):
            found.append(typed(head[0], item, around))
        elif head[0] in ("open", "ruleset", "deriving"):
            raise Unread(f"not known: {item[0].strip()}")
        elif head[0] != "unfolding" and is_signature(head):
            found.append(Definition(head[0], "function", [item], around))
        elif found and found[-1].kind == "function":
            found[-1].items.append(item)
        else:
            raise Unread(f"a clause without a signature: {item[0].strip()}")
    return found


def typed(kind, item, around):
    """A record or a data type, with its constructors."""
    end = header_end(item) or len(item)
    definition = Definition(header(item)[1], kind, [item], around)
    if kind == "data":
        for constructor in items(item[end:]):
            names, type_nodes = cut(tree(constructor), ":")
            if type_nodes is None:
                raise Unread(f"not known in a data type: {constructor[0].strip()}")
            definition.constructors += [word for word in names if isinstance(word, str)]
    return definition


# ---- a definition's references


def of_fields(item, references, bound):
    """A record or a data type: its parameters, its type, then its fields or constructors."""
    head, type_nodes = cut(header(item), ":")
    bound = references.telescope(head[2:], bound)
    references.walk(type_nodes or [], bound)
    for field in items(item[header_end(item) or len(item) :]):
        names = references.binder(without_marks(tree(field)), bound)
        if names is None:
            raise Unread(f"not known in a record or data type: {field[0].strip()}")
        bound = bound | names if head[0] == "record" else bound


def of_clause(item, references, bound, own):
    """A clause: its patterns, its term, and the definitions of its 'where'."""
    end = header_end(item)
    local = definitions(item[end:]) if end else []
    left, right = cut(header(item), "=")
    if right is None:
        raise Unread(f"a clause without '=': {item[0].strip()}")
    bound = bound | references.pattern([node for node in left if node not in own]) | {d.name for d in local}
    references.walk(right, bound)
    for definition in local:
        of_items(definition, references, bound)


def of_items(definition, references, bound):
    own = {definition.name, *definition.name.split("◌")}
    for number, item in enumerate(definition.items):
        nodes = without_marks(tree(item))
        if definition.kind == "contract":
            references.walk(nodes, definition.parameters)
        elif definition.kind in ("record", "data"):
            of_fields(item, references, bound)
        elif number == 0:
            left, type_nodes = cut(nodes, ":")
            references.walk(type_nodes, bound | set(leaves(left[1:])))
        elif nodes[0] == "unfolding":
            references.walk(nodes[1:], bound)
        else:
            of_clause(item, references, bound, own)


def references_of(definition, is_constructor):
    """The names that a definition refers to, those of the parameters around it included."""
    references, bound = References(is_constructor), set()
    for parameters in definition.around:
        bound = references.telescope(parameters, bound)
    of_items(definition, references, bound)
    return references.names


# ---- imports


class Import:
    """One imported name: what it is called here, the module's path, and its name there ('' for a module, '*' for all its names)."""

    def __init__(self, here, path, name, passed_on):
        self.here, self.path, self.name, self.passed_on = here, path, name, passed_on


def imports(lines):
    """The `use` and `mod` lines of a file."""
    found = []
    for item in items(lines):
        text = " ".join(" ".join(item).split()).removesuffix(";")
        use = re.fullmatch(r"(unfoldable |ghost )?(pub )?use (?:package\.)?(.*)", text)
        child = re.fullmatch(r"(?:pub )?mod (\S+)", text)
        if child:
            found.append(Import(child.group(1), ("", child.group(1)), "", False))
        elif use:
            found += list(used(use.group(3), bool(use.group(2))))
    return found


def used(text, passed_on):
    names = re.fullmatch(r"(.*?)\.\{(.*)\}", text)
    if names:
        for leaf in filter(None, (part.strip() for part in names.group(2).split(","))):
            name, _, here = leaf.partition(" as ")
            *below, name = name.strip().split(".")
            yield Import(here.strip() or name, (*names.group(1).split("."), *below), name, passed_on)
    elif text.endswith(".*"):
        yield Import("*", tuple(text[:-2].split(".")), "*", passed_on)
    else:
        path, _, here = text.partition(" as ")
        path = tuple(path.strip().split("."))
        yield Import(here.strip() or path[-1], path, "", passed_on)
