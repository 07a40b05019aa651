"""What the commands of this folder share: how they say what they are for, and what is wrong with their words.

The status is 2 where a command cannot do what it was asked for, since 1 says that something differs or is wrong.
"""
import argparse
import os
import subprocess
import sys
from collections.abc import Callable
from pathlib import Path
from typing import NoReturn

CANNOT = 2
CLERK = "permit_clerk"


def parser(text: str | None) -> argparse.ArgumentParser:
    """A parser that shows this text for `--help`."""
    return argparse.ArgumentParser(description=text, formatter_class=argparse.RawDescriptionHelpFormatter)


def program(word: str) -> str:
    """The whole path of a program, so that it is found wherever it is run."""
    if not os.access(word, os.X_OK) or not Path(word).is_file():
        raise OSError(f"{word} is not there, or is no program")
    return str(Path(word).absolute())


def clerk_beside(path: str) -> str | None:
    """The whole path of the clerk in the folder of a program, or where both are built; or None."""
    own = Path(path)
    places = (own.with_name(CLERK), *(crates / CLERK / "out" / CLERK for crates in own.parents[2:3]))
    return next((program(str(place)) for place in places if place.is_file()), None)


def ended(main: Callable[[], int]) -> NoReturn:
    """Ends with the status of `main`, or with one line where a file or a program is not as it has to be."""
    try:
        status = main()
        sys.stdout.flush()
    except BrokenPipeError:
        # Whoever read the output has gone. Python would say so once more at the end if standard output stayed.
        os.dup2(os.open(os.devnull, os.O_WRONLY), sys.stdout.fileno())
        status = CANNOT
    except (OSError, subprocess.SubprocessError) as fault:
        said = f"{fault.filename}: {fault.strerror}" if isinstance(fault, OSError) and fault.filename else fault
        print(f"{Path(sys.argv[0]).name}: {said}", file=sys.stderr)
        status = CANNOT
    sys.exit(status)
