"""What the tests share: where things stand, runs of the three programs, and journals of made days."""
import os
import pathlib
import re
import subprocess
import sys
from typing import Any

TESTS = pathlib.Path(__file__).resolve().parent
VIEW, TOP = TESTS.parent, TESTS.parent.parent
EXAMPLES = TOP / "examples"
PROGRAM = os.environ.get("PERMIT_PROGRAM", "")
sys.path[:0] = [str(VIEW), str(TOP / "compare"), str(TESTS)]


def ran(name: str, *words: Any, data: bytes = b"", **more: Any) -> "subprocess.CompletedProcess[bytes]":
    """A run of view/NAME."""
    return subprocess.run([str(VIEW / name), *map(str, words)], input=data, capture_output=True, timeout=300, **more)


def day_examples() -> list[pathlib.Path]:
    return sorted(path.with_suffix(".csv") for path in EXAMPLES.glob("*.journal"))


def check_examples() -> list[pathlib.Path]:
    return sorted(path.with_suffix(".csv") for path in EXAMPLES.glob("*.report"))


def made_day(seed: int, size: int) -> bytes:
    from model.making import made_day as make

    return str(make(seed, size)).encode()


def journal_of(day: bytes) -> bytes:
    """A journal of a day: the program's, where PERMIT_PROGRAM names it, or that of one thread by the second program."""
    if PROGRAM:
        return subprocess.run(
            [PROGRAM, "day"], input=day, stdout=subprocess.PIPE, stderr=subprocess.DEVNULL, check=True
        ).stdout
    from model.files import DayFile
    from model.journal import serial, text_of

    entries = serial(DayFile(day))[1]
    return str(text_of(entries)).encode()


def names(day: bytes, kind: str) -> list[str]:
    """The names of a kind of a plain day file, in their order."""
    return [line.split(",")[1] for line in day.decode().split("\n") if line.startswith(kind + ",")]


def said_by(journal: str) -> dict[str, Any]:
    """What a journal says, taken from its lines by plain patterns, with no reader of this package: permits with their
    routes, who was recalled by which posting, who was surrendered, the other answers, and the postings."""
    said: dict[str, Any] = {
        "permits": {},
        "recalled": {},
        "surrendered": set(),
        "answers": [],
        "postings": [],
        "days": [],
    }
    for line in journal.split("\n"):
        call, _, reply = line.partition(" = ")
        if found := re.match(r"issued (\d+) at (\d+) route ([\d,/]+)", reply):
            trip = re.search(r"truck (\d+) from (\d+) to (\d+) .*days (\S+) (\S+)", call)
            assert trip is not None
            said["permits"][int(found[1])] = {
                "version": int(found[2]),
                "routes": [list(map(int, route.split(","))) for route in found[3].split("/")],
                "truck": int(trip[1]),
                "days": (trip[4], trip[5]),
                "actor": int(line.split()[0]),
            }
        elif found := re.match(r"posted (\d+) recalled (\S+)", reply):
            recalled = [] if found[2] == "-" else list(map(int, found[2].split(",")))
            said["postings"].append(recalled)
            said["recalled"].update({number: int(found[1]) for number in recalled})
        elif reply == "surrendered":
            said["surrendered"].add(int(call.split()[-1]))
        elif re.match("refused|noroad|late|notneeded", reply):
            said["answers"].append(reply.split()[0])
        elif found := re.match(r"day (\S+)", reply):
            said["days"].append(found[1])
    return said
