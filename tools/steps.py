"""Which atomic steps each public call of `arcstr_block` and `arcstr` can reach, by the names in its
body and in what it calls. A name counts for each function that has it, so a call may have a step
too many. Not seen: the drops that end a body, and what a call of a trait of std calls."""
import re
from collections import defaultdict
from collections.abc import Iterable

from sources import CRATES, ROOT, Function, files_of, functions

PAGE = ROOT / "docs/STEPS.md"

# The functions of `Pointer` that take an atomic step or free the block, and the names of the steps.
STEPS = {
    **{"load": "load", "clone_exchange": "exchange", "leak": "mark"},
    **{"begin": "load of a drop", "sub": "subtraction", "back": "free"},
}
CALL = re.compile(
    r"(?:(?P<owner>\b[A-Z]\w*)(?:::<[^>]*>)?::|(?P<dot>\.))?\b(?P<name>[a-z_]\w*)(?:::<[^(]*>)?\("
)
LINE = re.compile(r"^- \*\*(.*?)\*\*: (.*)\.$", re.M)


def crate_of(it: Function) -> str:
    return it.file.relative_to(CRATES).parts[0]


def callees(caller: Function, named: dict[str, list[Function]]) -> Iterable[Function]:
    """The functions that a body may call, of its own crate or of one below."""
    for call in CALL.finditer(caller.body):
        owner = caller.owner if call["owner"] == "Self" else call["owner"]
        of_pointer = bool(re.search(r"pointer\s*\Z", caller.body[: call.start()]))
        of_pointer |= caller.owner == "Pointer"
        for it in named[call["name"]]:
            if owner:
                is_called = it.owner == owner
            elif call["dot"]:
                # Only what is called `pointer` has the functions of `Pointer`.
                is_called = bool(it.owner) and (it.owner == "Pointer") == of_pointer
            else:
                is_called = it.owner is None and crate_of(it) == crate_of(caller)
            if is_called and (crate_of(it), crate_of(caller)) != ("arcstr", "arcstr_block"):
                yield it


def reached(call: Function, named: dict[str, list[Function]]) -> frozenset[str]:
    """The steps that a call can reach."""
    seen, to_do, steps = {call}, [call], set()
    while to_do:
        caller = to_do.pop()
        if caller.owner == "Pointer" and caller.name in STEPS:
            steps.add(STEPS[caller.name])
            continue
        more = {*callees(caller, named)} - seen
        seen |= more
        to_do += more
    return frozenset(steps)


def page() -> str:
    """docs/STEPS.md, with the list that the sources give: each set of steps, and its calls."""
    crates = ("arcstr_block", "arcstr")
    calls = [it for crate in crates for file in files_of(crate)[0] for it in functions(file)]
    named: dict[str, list[Function]] = defaultdict(list)
    for it in calls:
        named[it.name].append(it)
    rows: dict[tuple[int, ...], set[str]] = defaultdict(set)
    for it in calls:
        if it.is_public and not it.trait:
            rows[tuple(sorted(map([*STEPS.values()].index, reached(it, named))))].add(it.call())
    lines = [PAGE.read_text().partition("- **")[0]]
    for key in sorted({*rows} - {()}):
        steps = ", ".join([*STEPS.values()][at] for at in key)
        lines.append(f"- **{steps}**: `{'`, `'.join(sorted(rows[key]))}`.\n")
    return "".join(lines)


def faults(is_written: bool) -> list[str]:
    """The calls whose steps the page has otherwise than the sources, unless it is written now."""
    if is_written:
        PAGE.write_text(page())
    told, found = (
        {(call, it[1]) for it in LINE.finditer(text) for call in it[2].split(", ")}
        for text in (PAGE.read_text(), page())
    )
    lacks = [f"docs/STEPS.md: the sources have {call} with {it}" for call, it in found - told]
    return sorted(lacks + [f"docs/STEPS.md: no {call} with {it}" for call, it in told - found])
