"""Reads the public items of a library: their signatures, contracts, doc comments and examples."""
import re
from collections.abc import Iterator
from dataclasses import dataclass, field
from pathlib import Path

from sources import OWNER, Function, end_of_group, files_of, functions, without_comments

TYPE = re.compile(
    r"^(?:#\[macro_export\]\n|pub )"
    r"(?P<kind>struct|enum|trait|type|static|const(?! fn)|macro_rules!) (?P<name>\w+)",
    re.M,
)
DECLARED = re.compile(r"\b(?:struct|enum|trait) (\w+)")
CLAUSE = re.compile(r"\n *(?:// Promise:|ensures|requires|ghost )")
COMMENT = re.compile(r"(?: *///.*\n)+(?: *#\[.*\]\n)*\Z")
DERIVED = re.compile(r"#\[derive\(([^)]*)\)\]")
GHOST = re.compile(r"^ *ghost (?!use\b)", re.M)
IMPORT = re.compile(r"\buse (?P<place>[\w.]+)\.\{(?P<names>[^}]*)\}")
TWIN = re.compile(r"As `(\w+::)?(\w+)`")
ACCESSOR = re.compile(r"\s*&?self(\.\w+)+(\.\w+\(\))?\s*")


@dataclass(eq=False)
class Item:
    """A public item, or a function of an implementation. `title` names it in messages, and
    `shown_by` the item whose example also shows it: None if it has an example or needs none. A
    trait has `functions`."""

    kind: str
    name: str
    title: str
    file: Path
    line: int
    signature: str
    contract: str
    comment: str
    shown_by: str | None
    derived: list[str] = field(default_factory=list)
    functions: list["Item"] = field(default_factory=list)


@dataclass(eq=False)
class Implementation:
    """What is implemented for a public type: a trait, or public functions of its own, where `trait`
    is empty. `contract` is what it states beside its functions."""

    trait: str
    header: str
    file: Path
    line: int
    comment: str
    contract: str
    functions: list[Item]


@dataclass(eq=False)
class Source:
    """A file of a library, and what the comment at its head says."""

    file: Path
    text: str
    head: str
    items: list[Item]
    implementations: list[Implementation]

    def public_items(self) -> list[Item]:
        """The items and their functions, but for those of implemented traits."""
        own = [*self.items, *(part for part in self.implementations if not part.trait)]
        return [*self.items, *(it for each in own for it in each.functions)]


def comment_above(text: str, place: int) -> str:
    found = COMMENT.search(text, 0, place)
    return "\n".join(re.findall(r"^ */// ?(.*)", found[0] if found else "", re.M))


def line_at(text: str, place: int) -> int:
    return text.count("\n", 0, place) + 1


def without_margin(text: str) -> str:
    margin = len(text) - len(text.lstrip(" "))
    return re.sub(rf"^ {{{margin}}}", "", text, flags=re.M)


def imports_of(text: str) -> dict[str, tuple[str, str]]:
    """The words that a file imports for its contracts, each with the place that it comes from and
    its name there."""
    names = {}
    for found in IMPORT.finditer(text):
        for part in found["names"].split(","):
            name, _, other = part.strip().partition(" as ")
            names[other or name] = (found["place"], name)
    return names


def without_private(body: str) -> str:
    """The body of a struct, a trait or a macro, where `..` stands for what is private."""
    shown = re.findall(r"(?:^ +///.*\n)*^ +(?:pub (?!fn)|\(\$).*", body, re.M)
    if not shown or re.search(r"^ +(?:pub\(.*?\) )?\w+: ", body, re.M):
        shown.append("    ..")
    return "\n".join(["{", *shown, "}"])


def split_header(function: Function, text: str) -> tuple[str, str]:
    """The signature and the contract of a function, without the margin of its lines."""
    has_body = function.raw_body or text.endswith("{}", 0, function.end)
    end = function.end - len(function.raw_body) - 2 if has_body else text.index(";", function.end)
    header = re.sub(r"\A(?:\s*#\[.*\n)*", "", text[function.start : end].rstrip())
    header = without_margin(header)
    clause = CLAUSE.search(header)
    first = clause.start() if clause else len(header)
    return header[:first], without_margin(header[first + 1 :])


def ghosts_of(body: str) -> str:
    """What the body of a trait or of an implementation states, but for imports, each with its
    comment."""
    code, shown = without_comments(body, literals=False), []
    for found in GHOST.finditer(code):
        comment = re.search(r"(?:^ *//.*\n)*\Z", body[: found.start()], re.M)
        end = found.end()
        while end < len(code) and code[end] != ";":
            end = end_of_group(code, end) if code[end] == "{" else end + 1
        start = comment.start() if comment else found.start()
        shown.append(without_margin(body[start : end + 1]))
    return "\n".join(shown)


def shown_by(title: str, comment: str, signature: str, function: Function | None) -> str | None:
    """The item whose example also shows this one: of a twin its twin, else this one. None if it has
    an example or needs none: an accessor, and the number of a fault."""
    owner = function.owner if function else None
    if function and owner and (function.name == "number" or ACCESSOR.fullmatch(function.body)):
        return None
    if "```" in comment or not signature.startswith(("pub ", "#[macro_export]")):
        return None
    twin = TWIN.match(comment)
    return f"{twin[1] or (f'{owner}::' if owner else '')}{twin[2]}" if twin else title


def without_example(items: list[Item]) -> list[Item]:
    """The items that no example shows, their own or that of a twin."""
    shown: dict[str | None, str | None] = {it.title: it.shown_by for it in items}

    def lacks(item: Item) -> bool:
        title = item.shown_by
        for _ in items:
            title = shown.get(title, title)
        return bool(title) or item.shown_by == item.title

    return [item for item in items if lacks(item)]


def function_of(file: Path, text: str, function: Function) -> Item:
    title = function.call()
    signature, contract = split_header(function, text)
    comment = comment_above(text, function.start)
    line = line_at(text, text.index("fn ", function.start))
    by = shown_by(title, comment, signature, function)
    return Item("fn", function.name, title, file, line, signature, contract, comment, by)


def types_of(file: Path, text: str) -> Iterator[Item]:
    """The public types, traits, constants and macros of a file."""
    code = without_comments(text, literals=False)
    for found in TYPE.finditer(code):
        place, name, kind = found.start(), found["name"], found["kind"].removesuffix("_rules!")
        ends = re.compile(r"[{;]").search(code, found.end())
        end = ends.start() if ends else len(code)
        body = text[end : end_of_group(code, end)] if code[end : end + 1] == "{" else ""
        shown = body if kind == "enum" or not body else without_private(body)
        signature = f"{text[place:end].strip()} {shown}".strip()
        comment, line = comment_above(text, place), line_at(text, place) + (kind == "macro")
        by = shown_by(name, comment, signature, None)
        stated = ghosts_of(body) if kind == "trait" else ""
        item = Item(kind, name, name, file, line, signature, stated, comment, by)
        above = text[:place].rsplit("\n\n", 1)[-1]
        item.derived = [it.strip() for each in DERIVED.findall(above) for it in each.split(",")]
        yield item


def read_source(file: Path, text: str, public: set[str], private: set[str]) -> Source:
    """A file of a library that declares these types and traits. What is implemented for a public
    one is shown where it names no private one."""
    head = "\n".join(re.findall(r"^//! ?(.*)", text, re.M))
    source = Source(file, text, head, [*types_of(file, text)], [])
    code, left = without_comments(text, literals=False), list(functions(file, text))
    for found in OWNER.finditer(code):
        end = end_of_group(code, found.end() - 1)
        inside = [it for it in left if found.start() < it.start < end]
        left = [it for it in left if it not in inside]
        own = [function_of(file, text, it) for it in inside if it.is_public]
        header = " ".join(text[found.start() : found.end() - 1].split()).removesuffix(",")
        trait, words = found["trait"] or found["own"] or "", {*re.findall(r"\w+", header)}
        if found["new"]:
            for item in source.items:
                item.functions += own if item.name == found["new"] else []
        elif words & public and not words & private and (trait or own):
            comment, line = comment_above(text, found.start()), line_at(text, found.start())
            stated = ghosts_of(text[found.end() : end])
            part = Implementation(trait, header, file, line, comment, stated, own)
            source.implementations.append(part)
    source.items += [function_of(file, text, it) for it in left if it.is_public]
    return source


def read_library(crate: str) -> dict[Path, Source]:
    """The files of a library, without those of its tests."""
    texts = {file: file.read_text() for file, tests in files_of(crate)[0].items() if not tests}
    codes = [without_comments(text, literals=False) for text in texts.values()]
    public = {found["name"] for code in codes for found in TYPE.finditer(code)}
    private = {name for code in codes for name in DECLARED.findall(code)} - public
    return {file: read_source(file, text, public, private) for file, text in texts.items()}
