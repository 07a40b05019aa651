#!/usr/bin/env python3
"""Times the printer and the reader of journals, on one processor.

    bench/time_journal.py JOURNAL [MEGABYTES]

JOURNAL is a file that `permit day` wrote, of the format that it writes now. Its entries are repeated to a journal of so
many megabytes (10). A program in a temporary folder, over a copy of the crates that it needs, reads that text and
prints the history again, seven times; it is run five times. This prints the best of each in megabytes a second, once it
has seen that what was printed is the text. The kit proves the program before it builds it, and first each crate below
it that is not kept as proved. What it measures rests on how busy the machine is.
"""
import subprocess
import sys
import tempfile
from dataclasses import dataclass
from pathlib import Path

from programs import built, ended, parser

FIRST_LINE = b"permit-journal 3"
MAIN = """// Reads a journal and prints it again, seven times, and says how many nanoseconds each took.
#![tactic(auto)]

use journal_reader::read;
use journal_text::print;
use std::io;
use std::io::Read;
use std::time::Instant;

fn main(rt: HostRuntime) -> io::Result<()> {
    let alloc = rt.alloc();
    let mut text = Vec::new(alloc);
    rt.stdin().read_to_end(&mut text)?;
    for _ in 0..7u32 {
        let began = Instant::now(&rt)?;
        let Ok(history) = read(alloc, text.as_slice()) else {
            return println!(rt; "no journal");
        };
        let middle = Instant::now(&rt)?;
        let Ok(printed) = print(alloc, &history) else {
            return println!(rt; "no memory");
        };
        let ended = Instant::now(&rt)?;
        let reading = middle.duration_since(began).as_nanos();
        let printing = ended.duration_since(middle).as_nanos();
        let same = printed.as_slice() == text.as_slice();
        println!(rt; "{same} {reading} {printing}")?;
    }
    Ok(())
}
"""


@dataclass(frozen=True)
class Times:
    """Nanoseconds for reading the text, and for printing it again."""

    reading: int
    printing: int


def repeated(journal: bytes, size: int) -> bytes:
    """A journal of so many bytes, with the entries of this one over and over."""
    lines = journal.split(b"\n")
    if len(lines) < 4 or lines[0] != FIRST_LINE or not lines[-2].startswith(b"end ") or lines[-1]:
        sys.exit("that is no journal of format 3 with an entry")
    entries = lines[1:-2]
    times = max(1, size // sum(len(line) + 1 for line in entries))
    return b"\n".join([lines[0], *(entries * times), b"end %d" % (times * len(entries)), b""])


def best(program: str, text: bytes) -> Times:
    """The best of five runs, each of which reads and prints seven times."""
    readings, printings = [], []
    for _ in range(5):
        ran = subprocess.run([program], input=text, stdout=subprocess.PIPE)
        for line in ran.stdout.decode().splitlines():
            same, *times = line.split(" ")
            if same != "true":
                sys.exit(f"the text is not read and printed again: {line}")
            readings.append(int(times[0]))
            printings.append(int(times[1]))
    if not readings:
        sys.exit("the program says nothing")
    return Times(min(readings), min(printings))


def main() -> int:
    """Takes the words of the command line."""
    asked = parser(__doc__)
    asked.add_argument("journal", type=Path, metavar="JOURNAL", help="a file that `permit day` wrote")
    asked.add_argument("megabytes", nargs="?", type=int, default=10, metavar="MEGABYTES", help="its length (10)")
    words = asked.parse_args()
    text = repeated(words.journal.read_bytes(), words.megabytes * 1000000)
    with tempfile.TemporaryDirectory() as folder:
        times = best(built(folder, "time_journal", ["journal_reader"], {"src/main.rt": MAIN}), text)
    lines = text.count(b"\n")
    print(f"{len(text)} bytes in {lines} lines")
    print(f"printing: {len(text) * 1000 / times.printing:.0f} MB/s")
    print(f"reading: {len(text) * 1000 / times.reading:.0f} MB/s")
    return 0


if __name__ == "__main__":
    ended(main)
