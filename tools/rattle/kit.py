#!/usr/bin/env -S python3 -B
"""What the scripts know of the Rattle kit beyond its commands: private programs and their flags,
the words of messages, and where built libraries lie. Another kit may change each of these.

tools/rattle/kit.py CRATE ..   proves and builds these crates and the libraries below them, where
                               that was not done with these sources.
"""
import os
import re
import shutil
import signal
import subprocess
import sys
import tempfile
import threading
from collections.abc import Iterable, Iterator
from contextlib import contextmanager
from functools import cache
from pathlib import Path

from sources import CRATES, below, is_library, uses_of

PROCESSORS = len(os.sched_getaffinity(0))
# The commands that run now, and whether an interrupt ended them.
RUNNING: list[subprocess.Popen] = []
IS_ENDED = threading.Event()
# Where this machine keeps what a later run takes.
CACHE = Path(os.environ.get("XDG_CACHE_HOME") or Path.home() / ".cache")
# The folder of crates in which all is built, if `./gate` names it.
BUILT = Path(os.environ.get("ARCSTR_BUILT") or CRATES)
# How far rt is with a crate, and which crate is done.
NEWS = re.compile(r"^(?:so far: .*|checked .*, \d+ of \d+\b.*|rt: .* (?:NOT )?(?:PROVED|proved))$")
# How many tests passed and failed.
TESTED = re.compile(r"^test result: .*? (?P<passed>\d+) passed; (?P<failed>\d+) failed;", re.M)
PASSED_TEST = re.compile(r"^test .* ok\n", re.M)


@cache
def folder() -> Path:
    """The kit's folder."""
    found = shutil.which("rt")
    if not found:
        sys.exit("rt is not in PATH")
    return Path(found).resolve().parents[1]


@cache
def version() -> str:
    return (folder() / "KIT-ID").read_text().strip()


def words_of_check(crate: str, kept: Path) -> list[str | Path]:
    """A check of a copy of a crate over the libraries that are built, to be run in its folder.
    `kept` is the folder of what earlier checks proved. `--only PATH` may follow for functions."""
    root = f"src/{'lib' if is_library(crate) else 'main'}.rt"
    libraries = folder() / "rlibs"
    built = {name: BUILT / name / "out/rlib" for name in below(crate)}
    words = [folder() / "bin/rattle", "check", "--crate-name", crate, root, "--incremental", kept]
    words += ["--antt-project", folder() / "rattle/logic/antt-project.json"]
    words += ["--logic-built", folder() / "logic_built"]
    for name in ["std", *uses_of(crate)]:
        words += ["--extern", f"{name}={built.get(name, libraries)}/{name}.rlib"]
    for place in [libraries, *built.values()]:
        words += ["-L", f"dependency={place}"]
    return words


def c_words(source: Path, made: Path) -> list[str | Path]:
    """Compiles a C file to an object file, or to a library to be loaded before the C library."""
    tools = folder() / "toolchain/bin"
    words: list[str | Path] = [tools / "clang", "-O1", "-fPIC", "-o", made, source]
    shared = ["-shared", "-nostdlib", f"-fuse-ld={tools}/ld.lld"]
    return [*words, *(["-c"] if made.suffix == ".o" else shared)]


# `rt`, of which `rt try` links a file before the kit's own C code, and has no check run beside it.
RT = """import runpy, sys; rt = runpy.run_path(sys.argv[1]); rt["rtlib"].RATTLE = "true"
rt["rtlib"].TRY_FLAGS.append("--link"); sys.exit(rt["main"](sys.argv[2:]))"""


def try_words(linked: Path, *words: str | Path) -> list[str | Path]:
    """`rt try` of a program with an object file, which may stand for the kit's own C code."""
    return [sys.executable, "-c", RT, folder() / "bin/rt", "try", "--link", linked, *words]


def take_interrupts() -> None:
    """Has SIGINT, SIGTERM and SIGHUP end what `run` runs and then, after its clean-up, this run."""

    def end(number: int, _: object) -> None:
        IS_ENDED.set()
        for ran in [*RUNNING]:
            ran.terminate()
        sys.exit(128 + number)

    for number in (signal.SIGINT, signal.SIGTERM, signal.SIGHUP):
        if signal.getsignal(number) != signal.SIG_IGN:
            signal.signal(number, end)


@contextmanager
def temporary_folder(prefix: str = "") -> Iterator[Path]:
    """A folder that is removed at the end, and before an interrupt ends this run."""
    take_interrupts()
    with tempfile.TemporaryDirectory(prefix=prefix) as made:
        yield Path(made)


def run(words: list, **how) -> subprocess.CompletedProcess:
    """Runs a command as `subprocess.run` does, with its output as text. An interrupt ends it."""
    streams = {"stdin": subprocess.DEVNULL, "stdout": subprocess.PIPE, "text": True}
    with subprocess.Popen(words, errors="replace", **{**streams, **how}) as ran:
        RUNNING.append(ran)
        if IS_ENDED.is_set():
            ran.terminate()
        said = ran.communicate()
    RUNNING.remove(ran)
    if IS_ENDED.is_set():
        sys.exit(130)
    return subprocess.CompletedProcess(words, ran.returncode, *said)


def prove(crates: Iterable[str]) -> bool:
    """Proves and builds crates and those below them, where that was not done. Returns whether all
    are proved, and else prints what rt says of the first that is not."""
    # `rt` would prove again what `rt ci` built.
    for crate in () if "ARCSTR_BUILT" in os.environ else crates:
        words = ["rt", "lib"] if is_library(crate) else ["rt", "run", "--", "script"]
        pipes = {"stdin": subprocess.DEVNULL, "stdout": subprocess.PIPE}
        pipes["stderr"] = subprocess.STDOUT
        said = []
        with subprocess.Popen(words, cwd=CRATES / crate, text=True, **pipes) as ran:
            for line in ran.stdout or ():
                said.append(line)
                if NEWS.match(line):
                    print(f"{crate}: {line}", end="", file=sys.stderr, flush=True)
        if ran.returncode:
            print(*said[-200:], f"{crate} is not proved\n", sep="", end="", file=sys.stderr)
            return False
    return True


if __name__ == "__main__":
    sys.exit(0 if prove(sys.argv[1:]) else 70)
