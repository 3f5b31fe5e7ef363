"""Reads the wrong bodies of a crate, each of which edits a function, and plants them in a copy of
the crate's sources.

A file of the folder `wrong-bodies` has a row for each, `CALL: OLD ==> NEW ~ CLAUSES`. OLD stands
once in the functions of the crate that are called CALL, and NEW in its place breaks these clauses.
Before the clauses may stand further edits of these functions, each after ` ~ `. A row may begin
with `NAME | `, and goes on in lines that begin with white space.
"""
import re
import shutil
from collections.abc import Iterable
from dataclasses import dataclass, field
from functools import cache
from pathlib import Path
from typing import NamedTuple

from sources import Function, functions, place_of, without_comments

ROWS = re.compile(r"^.+(?:\n[ \t].*)*", re.M)
EDIT = r"([^~]+) ==>([^~]*) ~ "
ROW = re.compile(
    r"(?:(?P<name>\w+) \| )?(?P<call>\S+|<[^~]+>::\w+): "
    rf"(?P<edits>(?:{EDIT})+)(?P<refused>[\w-]+(?:, [\w-]+)*)"
)
# The body that `leave_out_bodies` leaves, and its proof.
NO_BODY = " loop {} }"
HOLE = """use Rattle.{crate}.proofs.{place}.Statement.{{statement}}

pub {name}_spec : {{M : Type 1}} → statement M
{name}_spec = ?
"""


class Key(NamedTuple):
    """What tells a function from the others of its crate."""

    file: str
    owner: str | None
    trait: str | None
    name: str
    arguments: tuple[str, ...] = ()


class Change(NamedTuple):
    """A replacement of what stands between two places of a file."""

    file: str
    start: int
    end: int
    new: str


@dataclass
class WrongBody:
    """A wrong body: its row, the clauses that it breaks, what it changes, the functions around it,
    and their texts before and after. `wrong` says why it is not rejected at these clauses."""

    path: Path
    name: str
    call: str
    number: int
    lines: list[str]
    refused: list[str]
    changes: list[Change] = field(default_factory=list)
    functions: set[Key] = field(default_factory=set)
    texts: list[str] = field(default_factory=list)
    opened: set[str] = field(default_factory=set)
    wrong: str = ""

    @property
    def crate(self) -> str:
        return self.path.parents[1].name

    @property
    def place(self) -> str:
        return f"{place_of(self.path)}:{self.number}: {self.name}"


def key_of(file: str, it: Function) -> Key:
    return Key(file, it.owner, it.trait or it.lent, it.name, it.arguments)


@cache
def functions_in(file: Path, text: str) -> list[Function]:
    return list(functions(file, text))


def functions_at(room: Path, file: str, line: int) -> set[Key]:
    """The functions around the end of a line."""
    text = (room / file).read_text()
    at = len("".join(text.splitlines(True)[:line])) - 1
    found = functions_in(room / file, text)
    return {key_of(file, it) for it in found if it.start <= at <= it.end}


def plain(code: str) -> str:
    """Code without comments and layout."""
    return " ".join(without_comments(code).split())


@cache
def functions_of(crate: Path) -> list[tuple[str, str, Function]]:
    """The functions of a crate, each after its file and the text of that."""
    paths = sorted((crate / "src").rglob("*.rt"))
    texts = [(path, str(path.relative_to(crate)), path.read_text()) for path in paths]
    return [(file, text, it) for path, file, text in texts for it in functions_in(path, text)]


def calls_of(it: Function) -> tuple[str, str]:
    """What rows call a function: `f` or `Type::f`, and one of a trait `<Type as Trait>::f` too."""
    of, trait = (it.lent, it.owner) if it.lent else (it.owner, it.trait)
    return it.call(), f"<{of} as {trait}>::{it.name}"


def read_row(path: Path, number: int, lines: list[str]) -> WrongBody:
    """The wrong body of a row. Raises `ValueError`, with what is wrong."""
    row = ROW.fullmatch(" ".join(map(str.strip, lines)))
    if not row:
        raise ValueError("a row is `CALL: OLD ==> NEW ~ CLAUSES`")
    call, crate = row["call"], path.parents[1]
    body = WrongBody(path, row["name"] or call, call, number, lines, row["refused"].split(", "))
    for old, new in re.findall(EDIT, row["edits"]):
        pattern = re.compile(r"\s+".join(map(re.escape, old.split())))
        there = [
            (file, text, it, at)
            for file, text, it in functions_of(crate)
            if call in calls_of(it)
            for at in pattern.finditer(text, it.start, it.end)
        ]
        if len(there) != 1:
            raise ValueError(f"`{old}` stands {len(there)} times in `{call}`")
        file, text, it, at = there[0]
        if new.strip() == at[0]:
            raise ValueError(f"`{old}` is not changed")
        body.changes.append(Change(file, at.start(), at.end(), new.strip()))
        body.functions.add(key_of(file, it))
        after = text[it.start : at.start()] + new.strip() + text[at.end() : it.end]
        body.texts += [file, plain(text[it.start : it.end]), plain(after)]
    return body


def parse(path: Path, text: str) -> tuple[list[WrongBody], list[str]]:
    """The wrong bodies of a text of a file, and what is wrong, with its line."""
    bodies, errors = [], []
    for row in ROWS.finditer(text):
        number = text.count("\n", 0, row.start()) + 1
        try:
            bodies.append(read_row(path, number, row[0].splitlines()))
        except ValueError as error:
            errors.append(f"{place_of(path)}:{number}: {error}")
    return bodies, errors


def wrong_bodies_of(crate: Path) -> tuple[list[WrongBody], list[str]]:
    """The wrong bodies of a crate's folder, and what is wrong in their files."""
    paths = sorted((crate / "wrong-bodies").glob("*.edits"))
    read = [parse(path, path.read_text()) for path in paths]
    return sum((bodies for bodies, _ in read), []), sum((errors for _, errors in read), [])


def batches_of(edits: Iterable[WrongBody], most: int) -> list[list[WrongBody]]:
    """The edits in as few lists as serve, of at most so many, in each of which no two change one
    function."""
    batches: list[list[WrongBody]] = []
    for edit in edits:
        for batch in batches:
            if len(batch) < most and all(not edit.functions & it.functions for it in batch):
                batch.append(edit)
                break
        else:
            batches.append([edit])
    return batches


def module_of(file: str) -> str:
    """The module of a source, empty for the crate's root."""
    parts = Path(file).with_suffix("").parts[1:]
    return "::".join(part for part in parts if part not in ("lib", "main"))


def path_of(key: Key) -> str:
    """The prover's path of a function, or the end of it. A method of a type stands under the names
    of the type and of its arguments, and one of a trait in the module of the implementation, under
    the names of the type, the trait and those of its arguments that are other types."""
    trait, module = key.trait or "", module_of(key.file)
    if key.owner is None:
        return f"{module}::{key.name}".removeprefix("::")
    if not trait:
        return f"{'+'.join([key.owner, *key.arguments])}::{key.name}"
    # An implementation for a reference has its trait as its owner, and the reference in its place.
    named = f"{trait} {key.owner}" if trait.startswith("&") else f"{key.owner} {trait}"
    words = re.findall(r"\w+|&", re.sub(r"\bfmt::|\b\w+::\w+::|'\w+|\bDrop\b", "", named))
    words = words[:1] + [word for word in words[1:] if word != key.owner or trait.startswith("&")]
    named = "".join("Ref" if word == "&" else word[0].upper() + word[1:] for word in words)
    return f"{module}::{named}::{key.name}".removeprefix("::")


@cache
def module_of_type(owner: str, room: Path, behind: str = "") -> str | None:
    """The module in which a type is declared, where its name stands before a pattern. None if it is
    not declared in the folder."""
    type_of = re.compile(rf"^(?:pub(?:\(\w+\))? )?(?:struct|enum) {owner}\b{behind}", re.M)
    files = (file for file in (room / "src").rglob("*.rt") if type_of.search(file.read_text()))
    return next((module_of(str(file.relative_to(room))) for file in files), None)


def folder_of_proofs(key: Key, room: Path) -> Path:
    """The folder of a function's proofs. A method of a type stands with the type, unless there is a
    folder for it in its own module, or `impl Type` leaves out the parameters of the type."""
    path, proofs = path_of(key), room / "proofs"
    if not key.owner or key.trait:
        return proofs.joinpath(*path.split("::"))
    is_bare = f"\nimpl {key.owner} {{" in (room / key.file).read_text()
    own, of_type = module_of(key.file), module_of_type(key.owner, room, "(?!<)" * is_bare)
    modules = own, own if of_type is None else of_type
    folders = [proofs.joinpath(*module.split("::"), *path.split("::")) for module in modules]
    return next((folder for folder in folders if folder.is_dir()), folders[1])


def head_of(it: Function, text: str) -> str:
    """A function as far as its body begins."""
    return text[it.start : it.end - 1 - len(it.raw_body)]


def known_by_contract(file: Path, text: str) -> list[Function]:
    """The functions of a source of whose bodies nothing else knows, last first. What a macro writes
    may stand in any function, a constant is computed, and an `impl` that a function returns is a
    type of its body."""
    found = [] if "macro_rules!" in text else functions_in(file, text)[::-1]
    inner = {it for it in found for other in found if other.start < it.start < other.end}
    is_known = re.compile(r"\bconst fn\b|-> impl\b").search
    outer = [it for it in found if it.raw_body and it not in inner]
    return [it for it in outer if not is_known(head_of(it, text))]


@cache
def read_from(file: Path) -> str:
    """What checks read of a file of a crate: no comments, and no bodies that nothing else knows."""
    text = file.read_text()
    if file.suffix == ".rt":
        for it in known_by_contract(file, text):
            text = text[: it.start] + head_of(it, text) + text[it.end :]
        return plain(text)
    lines = re.sub(r"(?:^|(?<=\s))--.*", "", text, flags=re.M).splitlines()
    return "\n".join(line.rstrip() for line in lines if line.strip())


def plant(edits: list[WrongBody], room: Path) -> None:
    """Plants the edits in a copy of their crate, and leaves out what no check of them needs."""
    changes = [change for edit in edits for change in edit.changes]
    for file, start, end, new in sorted(changes, reverse=True):
        text = (room / file).read_text()
        # A function that an edit adds gets a line of its own, and so does the one behind it.
        (room / file).write_text(text[:start] + new.replace("} pub fn ", "}\npub fn ") + text[end:])
    leave_out_bodies({key for edit in edits for key in edit.functions}, edits[0].crate, room)


def leave_out_bodies(planted: set[Key], crate: str, room: Path) -> None:
    """Leaves the functions in which no edit is planted their contracts alone. Their proof is a
    hole, so nothing of what they call is read, and what calls them waits for no proof. The `main`
    of a program goes: of a program the prover reads the code of all libraries below it first, which
    takes it a minute. The folder of proofs of a trait's method cannot be told from its name."""
    for path in sorted((room / "src").rglob("*.rt")):
        file, text = str(path.relative_to(room)), path.read_text()
        for it in known_by_contract(path, text):
            key, left = key_of(file, it), ""
            is_of_trait = key.trait or it.owner and module_of_type(it.owner, room) is None
            if key in planted or is_of_trait:
                continue
            if it.name != "main":
                left = head_of(it, text) + NO_BODY
                leave_out_proof(key, crate, room)
            text = text[: it.start] + left + text[it.end :]
        path.write_text(text)


def leave_out_proof(key: Key, crate: str, room: Path) -> None:
    """Has a hole in place of what proves a function, and nothing for those that its body has."""
    folder = folder_of_proofs(key, room)
    shutil.rmtree(folder.parent / "fn" / folder.name, ignore_errors=True)
    folder.mkdir(parents=True, exist_ok=True)
    for file in folder.glob("*.antt"):
        file.unlink()
    place = ".".join(folder.relative_to(room / "proofs").parts)
    (folder / "Proof.antt").write_text(HOLE.format(crate=crate, place=place, name=key.name))
