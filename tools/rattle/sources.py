"""Reads the crates' sources, for the checks: the list of crates, the files of each, the functions
in a file with their contracts, and what differs from the upstream branch."""
import re
import shutil
import subprocess
from collections.abc import Iterable, Iterator
from dataclasses import dataclass, field
from functools import cache
from pathlib import Path

ROOT = Path(__file__).resolve().parents[2]
CRATES = ROOT / "crates"
COMMENT_OR_LITERAL = re.compile(
    r"(?P<line>//[^\n]*)|(?P<block>/\*)|\"(?:\\.|[^\"\\])*\"|(?<![\w'])'(?:\\[^'\n]+|[^'\\\n])'",
    re.S,
)
ATTRIBUTES = r"^(?P<attributes>(?:[ \t]*#\[[^\n]*\][ \t]*\n(?:[ \t]*\n)*)*)[ \t]*"
MODULE = re.compile(ATTRIBUTES + r"(?:pub(?:\([a-z]+\))? )?mod (?P<name>\w+);", re.M)
FUNCTION = re.compile(
    ATTRIBUTES
    + r"(?P<public>pub )?(?:pub\([a-z]+\) )?(?:(?:const|unsafe|extern|async) )*fn (?P<name>\w+)",
    re.M,
)
OWNER = re.compile(
    r"^(?:unsafe )?(?:impl\b(?P<parameters><[^{]*?>)? "
    r"(?:(?P<own>[^{;\n]*?) for (?P<lent>&(?:'\w+ )?\w+)"
    r"|(?:(?P<trait>[^{;\n]*?) for )?(?P<type>\w+(?:::\w+)*)(?P<arguments><[^{;\n]*>)?)"
    r"|(?P<open>pub )?trait (?P<new>\w+))[^;{]*\{",
    re.M,
)
CLAUSE = re.compile(
    r"\b(?:ghost \w+:|(?P<kind>ensures|requires|invariant|decreases)\*?(?: (?P<name>\w+))?)\s*$"
)
HIDING = re.compile(r"#!?\[(?:cfg|path|ignore).*?\]$", re.M)
CLOSING = {"(": ")", "{": "}"}


def place_of(file: Path) -> str:
    """A file as errors name it."""
    return str(file.relative_to(ROOT) if file.is_relative_to(ROOT) else file)


def end_of_block_comment(text: str, start: int) -> int:
    """The place after the block comment that begins at `start`. Block comments nest."""
    depth = 0
    for found in re.compile(r"/\*|\*/").finditer(text, start):
        depth += 1 if found[0] == "/*" else -1
        if depth == 0:
            return found.end()
    return len(text)


def blank(text: str) -> str:
    return re.sub(r"[^\n]", " ", text)


@cache
def without_comments(text: str, literals: bool = True) -> str:
    """The text with a space for each character of a comment, so that all places stay.
    `literals=False` also blanks what stands in quotes."""
    parts = []
    place = 0
    while found := COMMENT_OR_LITERAL.search(text, place):
        parts.append(text[place : found.start()])
        place = end_of_block_comment(text, found.start()) if found["block"] else found.end()
        part = text[found.start() : place]
        if found["line"] or found["block"]:
            part = blank(part)
        elif not literals:
            part = part[0] + blank(part[1:-1]) + part[-1]
        parts.append(part)
    return "".join(parts) + text[place:]


def without_layout(code: str) -> str:
    """The code without white space, but for that of literals, and without the comma of a last
    argument that has a line of its own."""
    code = re.sub(r"\"(?:\\.|[^\"\\])*\"|' '", lambda found: found[0].replace(" ", "\0"), code)
    return re.sub(r",?\s+(?=\))|\s+", "", code)


def listed_crates() -> list[str]:
    """The crates that crates.txt lists, in its order."""
    return re.findall(r"^\w+", (ROOT / "crates.txt").read_text(), re.M)


def uses_of(crate: str) -> list[str]:
    """What crates.txt lists after the name of a crate."""
    listed = (ROOT / "crates.txt").read_text()
    found = re.search(rf"^{crate}\b[^:#\n]*:(.*)", listed, re.M)
    return found[1].split() if found else []


@cache
def libraries() -> dict[str, list[str]]:
    """The libraries of crates.txt, lowest first, with what each uses."""
    return {crate: uses_of(crate) for crate in listed_crates() if is_library(crate)}


@cache
def below(crate: str) -> list[str]:
    """The libraries of the repository that a crate uses, and those that they use."""
    own = {*uses_of(crate)} & {*libraries()}
    return sorted(own.union(*map(below, own)))


def write_repository(folder: Path, crate: str, uses: Iterable[str], files: dict[str, str]) -> None:
    """Writes a repository that has these libraries and those below them, and a crate that uses
    them, with these files of sources."""
    wanted = {*uses}.union(*map(below, {*uses} & {*libraries()}))
    own = [name for name in libraries() if name in wanted]
    lines = [f"{name}: {' '.join(libraries()[name])}\n" for name in own]
    for name in [*own, crate]:
        for part in ("src", "specs", "proofs"):
            shutil.rmtree(folder / "crates" / name / part, ignore_errors=True)
            if (CRATES / name / part).is_dir():
                shutil.copytree(CRATES / name / part, folder / "crates" / name / part)
    (folder / "crates" / crate / "src").mkdir(parents=True)
    lines.append(f"{crate} tests_may=Threads+Wait: {' '.join({*uses, *own})}\n")
    (folder / "crates.txt").write_text("".join(lines))
    shutil.copy(ROOT / "HANDLES", folder)
    for name, text in files.items():
        (folder / "crates" / crate / "src" / name).write_text(text)


def is_library(crate: str) -> bool:
    return (CRATES / crate / "src" / "lib.rt").exists()


# The pages whose blocks `tools/rattle/examples` runs, but for those that declare a function, each
# with the library that it sees.
EXAMPLE_PAGES = {ROOT / "docs" / "GUIDE.md": "arcstr"} | {
    page: crate for crate in libraries() for page in (CRATES / crate).glob("*.md")
}
# The page of a library with this section has its calls.
REQUIRES = "\n## What a call requires\n"
DECLARES_FUNCTION = re.compile(r"^(pub )?fn ", re.M)


@cache
def files_of(crate: str) -> tuple[dict[Path, bool], list[str]]:
    """The files that the `mod` lines of a crate reach, each with whether it is for tests alone; and
    what is wrong: a file that they do not reach, a file that is missing, a test that is not run,
    and code under a condition other than `test`."""
    source = CRATES / crate / "src"
    root = source / ("lib.rt" if is_library(crate) else "main.rt")
    files: dict[Path, bool] = {}
    wrong: list[str] = []
    to_read = [(root, False)]
    while to_read:
        file, tests = to_read.pop()
        if not file.exists():
            wrong.append(f"{crate}: there is no {file.relative_to(CRATES / crate)}")
            continue
        files[file] = tests
        text = without_comments(file.read_text())
        hidden = [line for line in HIDING.findall(text) if line != "#[cfg(test)]"]
        wrong.extend(f"{crate}: {file.relative_to(source)} has `{line}`" for line in hidden)
        for found in MODULE.finditer(text):
            folder = file.parent if file == root else file.with_suffix("")
            is_tests = tests or "#[cfg(test)]" in found["attributes"]
            to_read.append((folder / f"{found['name']}.rt", is_tests))
    for file in sorted({*source.rglob("*.rt")} - {*files}):
        wrong.append(f"{crate}: no `mod` line reads {file.relative_to(source)}")
    return dict(sorted(files.items())), wrong


@dataclass(eq=False)
class Function:
    """A function: its type or trait where it has one, the trait that it implements, where it stands
    in its file, its `ensures` clauses by name (`None` for a clause without one), whether it has a
    `requires`, and its body. A function of a trait for a reference, as
    `impl Equivalent<ArcStr> for &str`, has the trait as its type, and the reference as `lent`. One
    of `impl Table<Vec<u8>>` has the `arguments` Vec and u8."""

    name: str
    owner: str | None
    is_public: bool
    attributes: list[str]
    file: Path
    start: int = 0
    end: int = 0
    trait: str | None = None
    lent: str | None = None
    arguments: tuple[str, ...] = ()
    ensures: dict[str | None, str] = field(default_factory=dict)
    requires: bool = False
    body: str = ""
    raw_body: str = ""

    def call(self) -> str:
        return f"{self.owner}::{self.name}" if self.owner else self.name


def arguments_of(part: dict[str, str | None]) -> tuple[str, ...]:
    """The types to which an implementation applies its type, without its own parameters."""
    own, names = (
        re.findall(r"'?\b\w+\b(?!::)", part.get(it) or "") for it in ("parameters", "arguments")
    )
    return tuple(name for name in names if name not in own)


def end_of_group(text: str, start: int) -> int:
    """The place after the bracket that closes the one at `start`."""
    depth = 0
    brackets = re.compile(re.escape(text[start]) + "|" + re.escape(CLOSING[text[start]]))
    for found in brackets.finditer(text, start):
        depth += 1 if found[0] == text[start] else -1
        if depth == 0:
            return found.end()
    return len(text)


def read_contract(function: Function, text: str, shown: str, source: str, start: int) -> None:
    """Reads the clauses and the body after the parameters. `shown` is the source without its
    comments, and `text` also without literals."""
    function.end = start
    while (found := re.compile(r"[{;]").search(text, start)) and found[0] == "{":
        function.end = end = end_of_group(text, found.start())
        clause = CLAUSE.search(text, start, found.start())
        if not clause:
            body = slice(found.end(), end - 1)
            function.body, function.raw_body = shown[body], source[body]
            return
        function.requires |= clause["kind"] == "requires"
        if clause["kind"] == "ensures":
            function.ensures[clause["name"]] = " ".join(shown[found.end() : end - 1].split())
        start = end


def functions(file: Path, source: str | None = None) -> Iterator[Function]:
    """The functions of a file, or of another text of it. One of a trait, or of its implementation,
    is as public as the trait."""
    source = file.read_text() if source is None else source
    shown = without_comments(source)
    text = without_comments(source, literals=False)
    owners = [(found, end_of_group(text, found.end() - 1)) for found in OWNER.finditer(text)]
    for found in FUNCTION.finditer(text):
        around = (owner for owner, end in owners if owner.start() < found.start() < end)
        owner = next(around, None)
        part = owner.groupdict() if owner else {}
        function = Function(
            found["name"],
            part.get("type") or part.get("own") or part.get("new"),
            bool(found["public"] or part.get("trait") or part.get("own") or part.get("open")),
            re.findall(r"#\[(.*)\]", found["attributes"]),
            file,
            found.start(),
            trait=part.get("trait"),
            lent=part.get("lent"),
            arguments=arguments_of(part),
        )
        parameters = end_of_group(text, text.index("(", found.end()))
        read_contract(function, text, shown, source, parameters)
        yield function


def changed() -> set[str]:
    """The files that differ from the upstream branch, and for one of wrong bodies in its place the
    lines that the branch lacks. Fails where there is no such branch."""
    git = lambda words: subprocess.check_output(["git", *words.split()], cwd=ROOT, text=True)
    rows = git("diff --merge-base @{upstream} -U0 -- *.edits").splitlines()
    names = git("diff --merge-base @{upstream} --name-only -- :!*.edits")
    names += git("ls-files --others --exclude-standard")
    return {*names.splitlines(), *(row[1:] for row in rows if row.startswith("+"))}
