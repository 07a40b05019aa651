#!/usr/bin/env python3
"""Measures for how long each turn of a day is held.

    bench/time_turns.py PROGRAM DAYFILE [TIMES]

A turn is held while the office carries out one call, in the one function that does so under the lock. The kernel notes
when that function begins and ends, by probes of its own, which want root, and tracefs at /sys/kernel/tracing. The day
is run TIMES (5) times. For each run it prints how many turns there were, and for how many microseconds a turn was held:
the median, the 99th percentile and the longest. A turn whose thread loses its processor meanwhile counts with all that
time, and each notice of the kernel costs about a microsecond.
"""
import os
import re
import subprocess
import sys
from collections.abc import Iterator
from contextlib import contextmanager
from pathlib import Path

from programs import ended, parser, whole_path

TRACING = Path("/sys/kernel/tracing")
EVENTS = "permit_turns"
# the function that carries out a call under the lock, as the linker names it
STEP = re.compile(r"\boffice_core::.*\bCountedOffice::step\b")
LARGE, USUAL = "65536", "1408"


def output(*command: str) -> str:
    """What a command writes."""
    return subprocess.run(command, capture_output=True, text=True, check=True).stdout


def address_of_step(program: str) -> int:
    """The address of the function in the program."""
    rows = [line.split() for line in output("nm", program).splitlines()]
    found = [row for row in rows if len(row) == 3 and row[1] in "tT" and STEP.search(row[2])]
    if len(found) != 1:
        sys.exit(f"the program has {len(found)} functions of that name: {[row[2] for row in found]}")
    return int(found[0][0], 16)


def offset(program: str, address: int) -> int:
    """Where in the file the code of this address stands."""
    for row in re.findall(r"^ +LOAD +(0x\w+) (0x\w+) 0x\w+ (0x\w+)", output("readelf", "-lW", program), re.M):
        start, virtual, size = (int(value, 16) for value in row)
        if virtual <= address < virtual + size:
            return start + address - virtual
    sys.exit("no part of the program has that address")


def write(name: str, text: str, how: int = os.O_TRUNC) -> None:
    """Tells the kernel something in one write, as tracefs wants it."""
    file = os.open(TRACING / name, os.O_WRONLY | how)
    try:
        os.write(file, text.encode())
    finally:
        os.close(file)


@contextmanager
def probes(program: str) -> Iterator[None]:
    """While this lasts, the kernel notes where the function begins and ends. Its own settings come back afterwards."""
    place = f"{program}:0x{offset(program, address_of_step(program)):x}"
    write("uprobe_events", f"p:{EVENTS}/began {place}\n", os.O_APPEND)
    write("uprobe_events", f"r:{EVENTS}/ended {place}\n", os.O_APPEND)
    try:
        write("buffer_size_kb", LARGE)
        write(f"events/{EVENTS}/enable", "1")
        yield
    finally:
        write(f"events/{EVENTS}/enable", "0")
        write("uprobe_events", f"-:{EVENTS}/began\n", os.O_APPEND)
        write("uprobe_events", f"-:{EVENTS}/ended\n", os.O_APPEND)
        write("buffer_size_kb", USUAL)


def held(trace: str) -> list[float]:
    """The microseconds for which each turn was held, rising."""
    began: dict[str, float] = {}
    times = []
    for thread, seconds, event in re.findall(r"-(\d+) +\[\d+\][^:]*? +(\d+\.\d+): (began|ended):", trace):
        if event == "began":
            began[thread] = float(seconds)
        elif thread in began:
            times.append(1e6 * (float(seconds) - began.pop(thread)))
    return sorted(times)


def run_once(program: str, day: Path) -> None:
    """Runs the day once, and prints for how long its turns were held."""
    write("trace", "")
    with day.open("rb") as file:
        subprocess.run([program, "day"], stdin=file, stdout=subprocess.DEVNULL, stderr=subprocess.DEVNULL, check=True)
    took = held((TRACING / "trace").read_text())
    if not took:
        sys.exit("no turn was seen")
    half, most, longest = took[len(took) // 2], took[len(took) * 99 // 100], took[-1]
    print(f"{len(took)} turns, half of them at most {half:.1f} us, all but one of a hundred {most:.1f}, "
          f"the longest {longest:.1f}", flush=True)


def main() -> int:
    """Takes the words of the command line."""
    asked = parser(__doc__)
    asked.add_argument("program", metavar="PROGRAM")
    asked.add_argument("day", type=Path, metavar="DAYFILE")
    asked.add_argument("times", nargs="?", type=int, default=5, metavar="TIMES", help="how many runs (5)")
    words = asked.parse_args()
    program = str(Path(whole_path(words.program)).resolve())
    if not words.day.is_file():
        raise OSError(f"{words.day} is not there")
    with probes(program):
        for _ in range(words.times):
            run_once(program, words.day)
    return 0


if __name__ == "__main__":
    ended(main)
