#!/usr/bin/env python3
"""Runs a command, and says how much processor time each check of a crate under it took.

    bench/time_gate.py [--every SECONDS] [--edits N] COMMAND..

It looks at the processes of the prover several times a second, and sorts them by crate and kind:

- `own`: the proof of the crate;
- `tests`: the proof of its tests;
- `seed`: the check of the crate as it stands, with which its wrong programs begin;
- `edits`: each wrong program;
- `build`: the build of a program.

What a process takes after the last look at it is missed, at most the time between two looks. Only processes below the
command are counted. The table goes to standard output when the command has ended, and what the command itself writes
goes to standard error. The status is the command's; it is 2 where the command is not there.
"""
import os
import re
import subprocess
import sys
import time
from collections.abc import Mapping, Sequence
from dataclasses import dataclass
from pathlib import Path

from programs import ended, parser

TICKS = os.sysconf("SC_CLK_TCK")
KINDS = ("own", "tests", "seed", "edits", "build")
PROVER, COPY_OF_CRATE, PARTS = "rattle", "rt-edit-", ("src", "specs", "proofs")
# how long the kit may take to write the wrong program into its copy of the crate, once the prover has begun
SECONDS_TO_WRITE = 0.05


@dataclass(frozen=True)
class Process:
    """The parent of a process, its seconds with those of the children it waited for, and when it began."""

    parent: int
    seconds: float
    began: str


@dataclass(frozen=True)
class Purpose:
    """The crate that a check is for, its kind, and the name of the wrong program that it tries."""

    crate: str
    kind: str
    edit: str = ""


@dataclass
class Check:
    """A process of the prover: what it is for, and the seconds that it has taken so far."""

    purpose: Purpose
    seconds: float


def process_of(number: int) -> Process | None:
    """What the kernel says of a process; None where it has gone."""
    try:
        text = Path(f"/proc/{number}/stat").read_text()
    except OSError:
        return None
    # the name of the program stands in brackets, and may have spaces in it
    fields = text[text.rindex(")") + 2:].split()
    return Process(int(fields[1]), sum(map(int, fields[11:15])) / TICKS, fields[19])


def words_of(number: int) -> list[str]:
    """The words that a process was started with; none where it has gone."""
    try:
        return Path(f"/proc/{number}/cmdline").read_bytes().decode(errors="replace").split("\0")[:-1]
    except OSError:
        return []


def is_prover(words: Sequence[str]) -> bool:
    """Whether these are the words of a process of the prover."""
    return bool(words) and Path(words[0]).name == PROVER


def texts_in(folder: Path) -> dict[str, str]:
    """The files of a crate, by their paths in it."""
    files = (path for part in PARTS for path in sorted((folder / part).rglob("*")) if path.is_file())
    return {str(path.relative_to(folder)): path.read_text(errors="replace") for path in files}


def edited(own: Mapping[str, str], edit: Path) -> dict[str, str]:
    """The files of a crate with a wrong program in them: the lines of its file say what takes the place of what."""
    text, path, old = dict(own), "", None
    for line in edit.read_text().split("\n"):
        if line.startswith("file: "):
            path = line.removeprefix("file: ").strip()
        elif line.startswith("old: "):
            old = line.removeprefix("old: ")
        elif line.startswith("new:") and old is not None:
            text[path] = text.get(path, "").replace(old, re.sub(r"\A ", "", line.removeprefix("new:")))
            old = None
    return text


def edit_in(folder: Path, crate: Path) -> str:
    """The name of the wrong program in a copy of a crate: none where it is the crate, `?` where it is unknown."""
    try:
        own, copy = texts_in(crate), texts_in(folder)
    except OSError:
        return "?"
    changed = [path for path, text in copy.items() if own.get(path) != text]
    if not changed:
        return ""
    for edit in sorted((crate / "must-fail").glob("*.edit")):
        text = edited(own, edit)
        if all(text.get(path) == copy[path] for path in changed):
            return edit.stem
    return "?"


def purpose_of(number: int, words: Sequence[str], top: Path) -> Purpose:
    """What a process of the prover is for, by its words and by the folder that it works in."""
    named = words.index("--crate-name") + 1 if "--crate-name" in words else len(words)
    crate = words[named] if named < len(words) else "?"
    if "--test" in words:
        return Purpose(crate, "tests")
    if "--crate-checked" in words:
        return Purpose(crate, "build")
    try:
        folder = Path(f"/proc/{number}/cwd").readlink()
    except OSError:
        return Purpose(crate, "own")
    if not folder.name.startswith(COPY_OF_CRATE):
        return Purpose(crate, "own")
    time.sleep(SECONDS_TO_WRITE)
    edit = edit_in(folder, top / "crates" / crate)
    return Purpose(crate, "edits" if edit else "seed", edit)


def is_below(number: int, root: int, processes: Mapping[int, Process]) -> bool:
    """Whether a process was started by another, or by one that was, and so on."""
    while number != root and number in processes:
        number = processes[number].parent
    return number == root


def look(root: int, seen: dict[tuple[int, str], Check], top: Path) -> None:
    """Takes in what runs now: `seen` has each check by the number of its process and when that began."""
    found = {number: process_of(number) for number in (int(it) for it in os.listdir("/proc") if it.isdigit())}
    processes = {number: it for number, it in found.items() if it}
    for number, it in processes.items():
        key = number, it.began
        if key in seen:
            seen[key].seconds = it.seconds
            continue
        words = words_of(number)
        if len(words) < 2 or not is_prover(words) or not is_below(number, root, processes):
            continue
        # the time of a process that the prover starts is its own
        if not is_prover(words_of(it.parent)):
            seen[key] = Check(purpose_of(number, words, top), it.seconds)


def tell_crates(checks: Sequence[Check]) -> None:
    """Prints the table of crates, the dearest first."""
    table: dict[str, dict[str, float]] = {}
    for check in checks:
        row = table.setdefault(check.purpose.crate, dict.fromkeys(KINDS, 0.0))
        row[check.purpose.kind] += check.seconds
    sums = {kind: sum(row[kind] for row in table.values()) for kind in KINDS}
    print(f"{'seconds of processor time':28}" + "".join(f"{it:>8}" for it in (*KINDS, "all")))
    for crate, row in sorted(table.items(), key=lambda it: -sum(it[1].values())):
        print(f"{crate:28}" + "".join(f"{row[kind]:8.0f}" for kind in KINDS) + f"{sum(row.values()):8.0f}")
    whole = sum(sums.values())
    print(f"{'all':28}" + "".join(f"{sums[kind]:8.0f}" for kind in KINDS) + f"{whole:8.0f}")
    print(f"{'minutes':28}" + "".join(f"{sums[kind] / 60:8.1f}" for kind in KINDS) + f"{whole / 60:8.1f}")


def tell_edits(checks: Sequence[Check], most: int) -> None:
    """Prints the dearest wrong programs, so many at most."""
    edits = sorted((it for it in checks if it.purpose.kind == "edits"), key=lambda it: -it.seconds)
    if edits and most:
        print(f"\nthe dearest of {len(edits)} wrong programs, seconds of processor time")
        for it in edits[:most]:
            print(f"{it.seconds:8.1f}  {it.purpose.crate}/{it.purpose.edit}")


def main() -> int:
    """Takes the words of the command line."""
    asked = parser(__doc__)
    asked.add_argument("--every", type=float, default=0.2, metavar="SECONDS", help="the time between two looks (0.2)")
    asked.add_argument("--edits", type=int, default=20, metavar="N", help="how many wrong programs are named (20)")
    asked.add_argument("command", nargs="...", metavar="COMMAND", help="the command with its words")
    words = asked.parse_args()
    if not words.command:
        asked.error("no command is given")
    if words.every <= 0 or words.edits < 0:
        asked.error("SECONDS is more than 0, N is at least 0")
    began = time.monotonic()
    running = subprocess.Popen(words.command, stdout=sys.stderr)
    seen: dict[tuple[int, str], Check] = {}
    while running.poll() is None:
        look(running.pid, seen, Path.cwd())
        time.sleep(words.every)
    wall, spent = time.monotonic() - began, os.times()
    checks = list(seen.values())
    tell_crates(checks)
    whole = spent.children_user + spent.children_system
    print(f"wall time {wall / 60:.1f} minutes, processor time of the command whole {whole / 60:.1f} minutes")
    tell_edits(checks, words.edits)
    return running.returncode


if __name__ == "__main__":
    ended(main)
