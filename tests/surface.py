#!/usr/bin/env python3
"""Shows that the libraries have each call that was specified before they were written: types with their public fields
or variants, traits with what has to be written of them, functions with the types of their parameters and results.
tests/surface.txt lists them, and says how it is read. If the sources have another form, it is below the specified one,
and a line of tests/surface_forms.txt names the call and says why.

    tests/surface.py
"""

import re
from dataclasses import dataclass, field, replace
from functools import cache
from itertools import groupby, product
from typing import Iterator

from lib.declarations import Crate, Item, Tokens, crates, items
from lib.program import ROOT, TESTS, Tally

LIST, FORMS = TESTS / "surface.txt", TESTS / "surface_forms.txt"
# The line of a type that has another name in all calls.
OF_MEMORY, MEMORY = "every call that can run out of memory", {"Memory": "AllocError"}
# Type parameters that only contracts read: they name a phase, or a publisher. The list has the
# second where a type is declared.
PHASE, NAMES = "PhaseName", ("PhaseName", "WindowName")
# Parameters of which only the name is written.
SHORT = {"rt": r"&\w", "alloc": "Global", "reader": r"\w", "writer": r"&mut \w"}
GONE = "none"


@dataclass(frozen=True)
class Form:
    """What a declaration shows to callers. Members have no order."""

    head: str
    parameters: tuple[tuple[str, str], ...] = ()
    members: frozenset[str] = frozenset()
    result: str = ""

    def __str__(self) -> str:
        if self.head.startswith("fn "):
            parameters = ", ".join(": ".join(filter(None, one)) for one in self.parameters)
            return f"{self.head}({parameters}){self.result and ' -> '}{self.result}"
        return self.head + (f" {{ {', '.join(sorted(self.members))} }}" if self.members else "")

    def is_met_by(self, other: "Form") -> bool:
        """The list may leave out the name of a parameter."""
        same = (self.head, self.members, self.result) == (other.head, other.members, other.result) and len(
            self.parameters
        ) == len(other.parameters)
        return same and all(
            type_ == of and name in ("", called)
            for (name, type_), (called, of) in zip(self.parameters, other.parameters)
        )


@dataclass
class Scope:
    """What names of types mean in a declaration. One that means nothing is left out."""

    meant: dict[str, str] = field(default_factory=dict)
    aliases: dict[str, str] = field(default_factory=dict)

    def within(self, generics: dict[str, str]) -> "Scope":
        return Scope(self.meant | {name: "" for name, bounds in generics.items() if bounds in NAMES}, self.aliases)

    def of(self, tokens: Tokens | None) -> str:
        """A type as it is compared."""
        return self.type(tokens.copy()) if tokens else ""

    def type(self, tokens: Tokens) -> str:
        if tokens.take("&"):
            return ("&mut " if tokens.take("mut") else "&") + self.type(tokens)
        if tokens.peek() == "(":
            return f"({', '.join(map(self.type, tokens.block().parts()))})"
        if tokens.peek() == "[":
            inner = tokens.block()
            of = self.type(inner)
            return f"[{of}; {self.type(inner)}]" if inner.take(";") else f"[{of}]"
        name = tokens.next()
        while tokens.take("::"):
            name += f"::{tokens.next()}"
        if tokens.take("="):
            return f"{name} = {self.type(tokens)}"
        found = self.meant.get(name, constants().get(name, name))
        if tokens.take("<"):
            of = list(filter(None, map(self.type, tokens.upto(">").parts())))
            tokens.next()
            found += f"<{', '.join(of)}>" if of else ""
        return self.aliases.get(found, found)


def all_items() -> Iterator[tuple[Crate, Item]]:
    return ((crate, item) for crate in crates().values() for module in crate.modules.values() for item in module)


@cache
def constants() -> dict[str, str]:
    """The constants that are a number, by which types name lengths."""
    found = {item.name: item.default.left for _, item in all_items() if item.kind == "const" and item.default}
    return {
        name: value[0].replace("_", "") for name, value in found.items() if len(value) == 1 and value[0][0].isdigit()
    }


@cache
def aliases() -> dict[str, str]:
    """What types are called that have a public name of their own."""
    return {
        scope_of(item).of(item.default): item.name for _, item in all_items() if item.kind == "type" and item.is_public
    }


def scope_of(item: Item, others: Scope = Scope()) -> Scope:
    """A scope with the type parameters of a declaration. Those of an alias have the bounds of the type that it
    names."""
    if item.kind != "type" or not item.default:
        return others.within(item.generics)
    tokens = item.default.copy()
    name = tokens.next()
    bounds = next(
        (list(found.generics.values()) for _, found in all_items() if found.kind == "struct" and found.name == name), []
    )
    of = [part.peek() for part in tokens.upto(">").parts()] if tokens.take("<") else []
    return others.within(dict(zip(of, bounds)))


def form(item: Item, name: str, scope: Scope) -> Form:
    """The form of a declaration, by the name that the list has for it."""
    scope = scope_of(item, scope)
    if item.kind == "fn":
        return Form(
            f"fn {name}", tuple(parameter(scope, part.copy()) for part in item.parameters), result=scope.of(item.type)
        )
    written = ", ".join(
        of + (bounds and f": {bounds}")
        for of, bounds in item.generics.items()
        if bounds != PHASE and (bounds or scope.meant.get(of) != "")
    )
    head = f"{item.kind} {name}" + (f"<{written}>" if written else "")
    if item.kind == "type":
        return Form(f"{head} = {Scope(scope.meant).of(item.default)}")
    if item.kind == "const":
        return Form(f"{head}: {scope.of(item.type)} = {item.default}")
    return Form(
        head, members=frozenset(member(scope, item.kind, one) for one in item.members if is_shown(item.kind, one))
    )


def parameter(scope: Scope, tokens: Tokens) -> tuple[str, str]:
    """The name and the type of a parameter, of which one may be missing."""
    tokens.take("mut")
    text = str(tokens)
    if text in ("self", "& self", "& mut self"):
        return "", text.replace("& ", "&")
    if text in SHORT:
        return text, ""
    name = ""
    if re.match(r"\w+ : ", text):
        name = tokens.next().lstrip("_")
        tokens.next()
    found = scope.of(tokens)
    return (name, "") if re.fullmatch(SHORT.get(name, "-"), found) else (name, found)


def is_shown(kind: str, one: Item) -> bool:
    """Whether callers see a member, or have to write it, if it is a trait's."""
    return one.default is None if kind == "trait" else one.is_public


def member(scope: Scope, kind: str, one: Item) -> str:
    if kind == "trait":
        return one.name
    if kind == "struct":
        return f"{one.name}: {scope.of(one.type)}"
    if one.members:
        return f"{one.name} {{ {', '.join(sorted(member(scope, 'struct', each) for each in one.members))} }}"
    return one.name + (f"({', '.join(scope.of(part) for part in one.type.copy().parts())})" if one.type else "")


# What the sources have
def find(crate: Crate, name: str) -> tuple[Item, Form] | None:
    """What users of a crate have by a name of the list."""
    owner, _, last = name.rpartition("::")
    there = crate.exported(owner or name)
    if there is None or not owner:
        return there and (there[1], form(there[1], name, Scope({}, aliases())))
    return next(((one, form(one, name, scope)) for one, scope in methods(*there) if one.name == last), None)


def methods(crate: Crate, item: Item) -> Iterator[tuple[Item, Scope]]:
    """The functions of a type or a trait, with what types mean there."""
    if item.kind == "trait":
        yield from ((one, Scope({}, aliases())) for one in item.members)
    for meant, impl in impls(crate, item):
        scope = scope_of(impl, Scope(meant, aliases()))
        scope.meant["Self"] = scope.of(impl.type)
        yield from ((one, scope) for one in impl.members if one.kind == "fn" and (one.is_public or impl.of_trait))


def impls(crate: Crate, item: Item) -> Iterator[tuple[dict[str, str], Item]]:
    """The impls of a type, each with what its type parameters are there."""
    wanted = scope_of(item).of(item.default) if item.kind == "type" else item.name
    name, of = parts(wanted)
    for impl in crate.impls():
        called, given = parts(scope_of(impl).of(impl.type))
        pairs = list(zip(given, of))
        if called == name and all(a == b or a in impl.generics for a, b in pairs):
            yield dict(pairs), impl


def parts(type_: str) -> tuple[str, list[str]]:
    """The name of a type and what stands in its angles."""
    name, _, of = type_.partition("<")
    return name, of.removesuffix(">").split(", ") if of else []


# The list
@dataclass
class Listed:
    crate: str
    here_crate: str
    text: str
    here: str = ""


def listed() -> Iterator[Listed]:
    """The declarations of the list, in its order."""
    text = re.sub(r"(?m)^#.*\n", "", LIST.read_text())
    crate = here_crate = ""
    for block in re.findall(r"(?m)^\S.*\n(?: .*\n)*", text):
        said, _, here = (" ".join(part.split()) for part in block.partition("\n    here: "))
        if said.startswith("crate "):
            crate = here_crate = said.removeprefix("crate ")
            here_crate = here.removeprefix("crate ") or crate
        else:
            yield Listed(crate, here_crate, said, here)


def of_list(text: str) -> Item:
    """A declaration of the list. All its members are seen, and of a trait it has the names."""
    is_trait = text.startswith("trait ")
    item = next(items(Tokens(re.sub("^trait ", "enum ", text) + ";"), LIST))
    item.kind = "trait" if is_trait else item.kind
    for one in item.members:
        one.is_public = True
    return item


def compare(tally: Tally, one: Listed) -> None:
    """The sources have what the list says."""
    said = of_list(one.text)
    specified = form(said, said.name, Scope(MEMORY))
    here = None if one.here in ("", GONE) else of_list(one.here)
    wanted = form(here, here.name, Scope()) if here else specified
    found = find(crates()[one.here_crate], here.name if here else said.name)
    if one.here == GONE:
        tally.check(found is None, f"{one.crate}: `{said.name}` is there again")
    elif found is None:
        tally.check(False, f"{one.crate}: `{wanted}` is missing")
    else:
        item, there = found
        tally.check(
            any(wanted.is_met_by(each) for each in instances(crates()[one.here_crate], item, there)),
            f"{item.path.relative_to(ROOT)}: {difference(wanted, there)}",
        )
    if here:
        tally.check(
            not specified.is_met_by(wanted), f"{one.crate}: `{said.name}` is listed twice in its specified form"
        )
    if one.here:
        names = {said.name, *(f"{said.name}::{Tokens(each).peek()}" for each in specified.members)}
        tally.check(
            bool(names & names_with_reasons()),
            f"{FORMS.name} has a line of `{said.name}` of {one.crate}, as its form is another",
        )


def instances(crate: Crate, item: Item, general: Form) -> Iterator[Form]:
    """A form, and its forms for the types that have a trait of the crate, if a type
    parameter asks for just that trait."""
    yield general
    for impl in crate.impls():
        of_trait = {of for of, bounds in item.generics.items() if bounds == str(impl.of_trait)}
        type_ = scope_of(impl, Scope({}, aliases())).of(impl.type)
        if of_trait:
            yield replace(
                general, parameters=tuple((name, type_ if of in of_trait else of) for name, of in general.parameters)
            )


def difference(wanted: Form, found: Form) -> str:
    if wanted.head != found.head or wanted.members == found.members:
        return f"listed is `{wanted}`, and here is `{found}`"
    sides = {"lacks": wanted.members - found.members, "has besides": found.members - wanted.members}
    told = (f"{side} `{each}`" for side, members in sides.items() for each in sorted(members))
    return f"`{wanted.head}` {', and '.join(told)}"


@cache
def names_with_reasons() -> set[str]:
    """The names of calls whose other form has a reason."""
    calls = re.findall(r"(?m)^([^#\n].*?) \| .+ \| .+$", FORMS.read_text())
    names = {re.sub("<.*", "", name) for line in calls for name in re.findall(r"`([^`]+)`", line)}
    return names | ({OF_MEMORY} & set(calls))


def compare_impls(tally: Tally, one: Listed) -> None:
    """Each of these types has each of these traits."""
    traits, types = (
        [Scope().of(part) for part in Tokens(text).parts()] for text in one.text.removeprefix("impl ").split(" for ")
    )
    for type_, trait in product(types, traits):
        there = crates()[one.here_crate].exported(parts(type_)[0])
        tally.check(
            there is not None and has_trait(*there, type_, trait), f"{one.crate}: `impl {trait} for {type_}` is missing"
        )


def has_trait(crate: Crate, item: Item, type_: str, trait: str) -> bool:
    if trait in item.derives:
        return True
    for _, impl in impls(crate, item):
        scope = scope_of(impl, Scope({}, aliases()))
        given = scope.of(impl.type)
        of = [f"{one.name} = {scope.of(one.default)}" for one in impl.members if one.kind == "type"]
        if (
            impl.of_trait
            and type_ in (given, parts(given)[0])
            and trait == scope.of(impl.of_trait) + (f"<{', '.join(of)}>" if of else "")
        ):
            return True
    return False


def main() -> None:
    tally = Tally()
    tally.check(OF_MEMORY in names_with_reasons(), f"{FORMS.name} has a line of {OF_MEMORY}")
    for (crate, here), calls in groupby(listed(), lambda one: (one.crate, one.here_crate)):
        passed = tally.passed
        tally.check(
            here == crate or crate in names_with_reasons(),
            f"{FORMS.name} has a line of {crate}, as its calls are in {here}",
        )
        for one in calls:
            (compare_impls if one.text.startswith("impl ") else compare)(tally, one)
        print(f"{tally.passed - passed:6} passed: {crate}")
    tally.finish()


if __name__ == "__main__":
    main()
