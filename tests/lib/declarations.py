"""Reading what sources in Rattle declare: types with their fields or variants, traits, functions with their parameters
and results, and what a crate exports. Bodies and contracts are passed over."""

import re
from dataclasses import dataclass, field, replace
from functools import cache
from pathlib import Path
from typing import Iterator

from lib.program import CRATES

TOKEN = re.compile(r"""//[^\n]*|b?"(?:\\.|[^"\\])*"|b?'(?:\\[^']+|[^'\\\n])'|'[a-z_]\w*|\w+|->|=>|::|\S""")
PASSED_OVER = re.compile(r"//.*|'\w+")
CLOSING = {"(": ")", "[": "]", "{": "}"}
DEEPER = dict.fromkeys("<([{", 1) | dict.fromkeys(">)]}", -1)
# In a value `<` is no bracket.
OF_VALUES = dict.fromkeys("([{", 1) | dict.fromkeys(")]}", -1)


class Tokens:
    """What is left to read of a text, without comments and lifetimes."""

    def __init__(self, text: str) -> None:
        # The next one is the last.
        self.left = [token for token in TOKEN.findall(text) if not PASSED_OVER.fullmatch(token)][::-1]

    def copy(self) -> "Tokens":
        return Tokens.of(self.left[::-1])

    @staticmethod
    def of(tokens: list[str]) -> "Tokens":
        found = Tokens("")
        found.left = tokens[::-1]
        return found

    def __str__(self) -> str:
        return " ".join(self.left[::-1])

    def peek(self) -> str:
        return self.left[-1] if self.left else ""

    def next(self) -> str:
        return self.left.pop()

    def take(self, wanted: str) -> bool:
        """Takes this token, if it comes next."""
        is_next = self.peek() == wanted
        if is_next:
            self.next()
        return is_next

    def block(self) -> "Tokens":
        """What stands in the brackets that begin here."""
        inner, open_ = [], [CLOSING[self.next()]]
        while open_:
            token = self.next()
            if token in CLOSING:
                open_.append(CLOSING[token])
            elif token == open_[-1]:
                open_.pop()
            inner.append(token)
        return Tokens.of(inner[:-1])

    def skip_to(self, *ends: str) -> None:
        """Goes to the first of these outside brackets."""
        while self.left and self.peek() not in ends:
            self.block() if self.peek() in CLOSING else self.next()

    def upto(self, *ends: str, deeper: dict[str, int] = DEEPER) -> "Tokens":
        """The tokens before the first of these outside brackets, which angles are too."""
        taken, depth = [], 0
        while self.left and (depth or self.peek() not in ends):
            depth += deeper.get(self.peek(), 0)
            taken.append(self.next())
        return Tokens.of(taken)

    def parts(self) -> Iterator["Tokens"]:
        """What stands between commas."""
        while self.left:
            part = self.upto(",")
            self.take(",")
            if part.left:
                yield part


@dataclass
class Item:
    """What is declared. An impl has the type as its name, the types of a trait and of an impl are members, and a
    constant's value is its type's default."""

    kind: str
    name: str
    path: Path
    is_public: bool = True
    generics: dict[str, str] = field(default_factory=dict)
    derives: set[str] = field(default_factory=set)
    parameters: list[Tokens] = field(default_factory=list)
    members: list["Item"] = field(default_factory=list)
    type: Tokens | None = None
    of_trait: Tokens | None = None
    default: Tokens | None = None


def items(tokens: Tokens, path: Path) -> Iterator[Item]:
    derives, is_public = set(), False
    while tokens.left:
        token = tokens.next()
        if token == "#":
            tokens.take("!")
            words = tokens.block().left
            derives |= set(words) if "derive" in words else set()
        elif token == "pub":
            is_public = visibility(tokens)
        elif token == "unsafe":
            pass
        else:
            if token == "ghost" or token == "const" and tokens.peek() == "_":
                tokens.skip_to(";")
            elif token in READERS:
                yield replace(READERS[token](tokens, token, path), is_public=is_public, derives=derives)
            derives, is_public = set(), False


def visibility(tokens: Tokens) -> bool:
    """Whether what follows `pub` is seen outside its crate."""
    if tokens.peek() == "(":
        tokens.block()
        return False
    return True


def generics(tokens: Tokens) -> dict[str, str]:
    """Type parameters, each with its bounds."""
    found = {}
    if tokens.take("<"):
        for part in tokens.upto(">").parts():
            name = part.next()
            if name == "const":
                name += f" {part.next()}"
            found[name] = " ".join(part.upto("=").left[-2::-1])
        tokens.next()
    return found


def read_type(tokens: Tokens, kind: str, path: Path) -> Item:
    """A struct, an enum or a trait."""
    item = Item(kind, tokens.next(), path, generics=generics(tokens))
    if tokens.peek() == "(":
        item.type = tokens.block()
        return item
    tokens.skip_to("{", ";")
    if tokens.peek() == "{":
        read_members = {"struct": fields, "enum": variants, "trait": items}[kind]
        item.members = list(read_members(tokens.block(), path))
    return item


def fields(tokens: Tokens, path: Path) -> Iterator[Item]:
    for part in split(tokens):
        is_public = part.take("pub") and visibility(part)
        if not part.take("ghost"):
            name = part.next()
            part.take(":")
            yield Item("field", name, path, is_public, type=part)


def variants(tokens: Tokens, path: Path) -> Iterator[Item]:
    for part in split(tokens):
        item = Item("variant", part.next(), path)
        if part.peek() == "(":
            item.type = part.block()
        elif part.peek() == "{":
            item.members = list(fields(part.block(), path))
        yield item


def split(tokens: Tokens) -> Iterator[Tokens]:
    """What stands between commas, without attributes."""
    for part in tokens.parts():
        while part.take("#"):
            part.block()
        yield part


def read_function(tokens: Tokens, kind: str, path: Path) -> Item:
    name = tokens.next()
    while tokens.take("::"):
        name += f"::{tokens.next()}"
    item = Item(kind, name, path, generics=generics(tokens))
    item.parameters = list(tokens.block().parts())
    if tokens.take("->"):
        item.type = tokens.upto("requires", "ensures", "where", "{", ";")
    if tokens.peek() == "where":
        tokens.skip_to("requires", "ensures", "{", ";")
    # A clause is a word, perhaps a name, and braces. The body has neither word nor name.
    while tokens.peek() in ("requires", "ensures"):
        tokens.skip_to("{")
        tokens.block()
    if tokens.peek() == "{":
        item.default = tokens.block()
    return item


def read_impl(tokens: Tokens, kind: str, path: Path) -> Item:
    item = Item(kind, "", path, generics=generics(tokens))
    item.type = tokens.upto("for", "where", "{", ";")
    if tokens.take("for"):
        item.of_trait, item.type = item.type, tokens.upto("where", "{", ";")
    tokens.skip_to("{", ";")
    if tokens.peek() == "{":
        item.members = list(items(tokens.block(), path))
    return item


def read_value(tokens: Tokens, kind: str, path: Path) -> Item:
    """A constant or a name of a type."""
    item = Item(kind, tokens.next(), path, generics=generics(tokens))
    item.type = tokens.upto("=", ";") if tokens.take(":") else None
    deeper = DEEPER if kind == "type" else OF_VALUES
    item.default = tokens.upto(";", deeper=deeper) if tokens.take("=") else None
    return item


def read_use(tokens: Tokens, kind: str, path: Path) -> Item:
    return Item(kind, "", path, type=tokens.upto(";"))


READERS = dict.fromkeys(("struct", "enum", "trait"), read_type) | dict.fromkeys(("const", "static", "type"), read_value)
READERS |= {"fn": read_function, "impl": read_impl, "use": read_use}


@dataclass
class Crate:
    name: str
    # The items of each module. The root's path is empty.
    modules: dict[tuple[str, ...], list[Item]]

    def impls(self) -> Iterator[Item]:
        return (item for found in self.modules.values() for item in found if item.kind == "impl")

    def exported(self, name: str) -> tuple["Crate", Item] | None:
        """What users of the crate have by this name, and the crate that declares it."""
        return self.found((), name)

    def found(self, module: tuple[str, ...], name: str) -> tuple["Crate", Item] | None:
        for item in self.modules.get(module, ()):
            if item.is_public and item.name == name and item.kind not in ("use", "impl"):
                return self, item
        for item in self.modules.get(module, ()):
            for path in uses(item.type) if item.kind == "use" and item.is_public else ():
                if path[-1] == name:
                    path = path[1:] if path[0] in ("crate", "self") else path
                    other = None if path[:1] in self.modules else crates().get(path[0])
                    return other.exported(name) if other else self.found(path[:-1], name)
        return None


def uses(tokens: Tokens) -> list[tuple[str, ...]]:
    """The paths that a `use` names."""
    text = "".join(tokens.left[::-1])
    front, brace, listed = text.partition("{")
    names = listed.removesuffix("}").split(",") if brace else [""]
    return [tuple((front + name).split("::")) for name in names if name or not brace]


@cache
def crates() -> dict[str, Crate]:
    found = {}
    for folder in sorted(CRATES.iterdir()):
        modules = {}
        for path in folder.glob("src/**/*.rt"):
            module = path.relative_to(folder / "src").with_suffix("").parts
            modules[() if module in (("lib",), ("main",)) else module] = list(items(Tokens(path.read_text()), path))
        found[folder.name] = Crate(folder.name, modules)
    return found
