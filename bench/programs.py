"""What the measuring scripts share: programs of their own over crates of the repository, and how they take words.

The kit proves each such program before it builds it.
"""
import argparse
import os
import re
import shutil
import subprocess
import sys
from collections.abc import Callable, Iterable, Mapping
from pathlib import Path
from typing import NoReturn

HOME = Path(__file__).resolve().parent.parent
PARTS = ("src", "specs", "proofs", "out/rlib")
CANNOT = 2
CLERK = "permit_clerk"


def parser(text: str | None) -> argparse.ArgumentParser:
    """A parser that shows this text for `--help`."""
    return argparse.ArgumentParser(description=text, formatter_class=argparse.RawDescriptionHelpFormatter)


def whole_path(program: str) -> str:
    """The whole path of a program, so that it is found wherever it is run."""
    if not os.access(program, os.X_OK) or not Path(program).is_file():
        raise OSError(f"{program} is not there, or is no program")
    return str(Path(program).absolute())


def clerk_beside(program: str) -> str | None:
    """The whole path of the clerk in the folder of a program, or where both are built; or None."""
    own = Path(program)
    places = (own.with_name(CLERK), *(crates / CLERK / "out" / CLERK for crates in own.parents[2:3]))
    return next((whole_path(str(place)) for place in places if place.is_file()), None)


def ended(main: Callable[[], int]) -> NoReturn:
    """Ends with the status of `main`, or with one line and 2 where a file or a program is not as it has to be."""
    try:
        status = main()
    except (OSError, subprocess.SubprocessError) as fault:
        said = f"{fault.filename}: {fault.strerror}" if isinstance(fault, OSError) and fault.filename else fault
        print(f"{Path(sys.argv[0]).name}: {said}", file=sys.stderr)
        status = CANNOT
    sys.exit(status)


def uses_of_crates() -> dict[str, list[str]]:
    """What each crate of the repository uses, as crates.txt says it."""
    crates = (HOME / "crates.txt").read_text(encoding="utf-8")
    return {crate: line.split() for crate, line in re.findall(r"^(\w+)[^:#\n]*:(.*)", crates, re.M)}


def crates_below(tops: Iterable[str], uses: Mapping[str, list[str]]) -> set[str]:
    """Some crates and all that they rest on."""
    below: set[str] = set()
    more = set(tops)
    while more - below:
        below |= more
        more = {used for crate in below for used in uses.get(crate, [])}
    return below


def built(folder: str, name: str, tops: Iterable[str], files: Mapping[str, str]) -> str:
    """Builds a program of these files over crates of the repository and all that are below them, and gives its path."""
    there, uses = Path(folder), uses_of_crates()
    below = crates_below(tops, uses)
    own = sorted(below & set(uses))
    lines = [f"{crate}: {' '.join(uses[crate])}" for crate in own] + [f"{name}: {' '.join(sorted(below))}"]
    (there / "crates.txt").write_text("".join(f"{line}\n" for line in lines), encoding="utf-8")
    for crate in own:
        for part in PARTS:
            source = HOME / "crates" / crate / part
            if source.is_dir():
                shutil.copytree(source, there / "crates" / crate / part)
    crate_folder = there / "crates" / name
    for path, text in files.items():
        (crate_folder / path).parent.mkdir(parents=True, exist_ok=True)
        (crate_folder / path).write_text(text, encoding="utf-8")
    ran = subprocess.run(["rt", "run"], cwd=crate_folder, stdin=subprocess.DEVNULL, stdout=subprocess.PIPE,
                         stderr=subprocess.STDOUT)
    program = crate_folder / "out" / name
    if not program.is_file():
        sys.exit(f"{ran.stdout.decode()}the program is not built")
    return str(program)
