#!/usr/bin/env python3
"""Measures the memory of snapshots that are held at once.

    bench/hold_snapshots.py

A program in a temporary folder, over a copy of the crates that it needs, makes the greatest network (4,096 nodes,
16,384 segments, 2,048 spans), posts 4,096 changes one after another, each on another segment or span, and keeps a
snapshot of each version. This prints the most memory that it held, with and without the snapshots. The kit proves the
program before it builds it, and first each crate below it that is not kept as proved.
"""
import subprocess
import sys
import tempfile
from typing import NamedTuple

from programs import built, ended, parser

MAIN = """// Holds a snapshot of each of 4,096 versions, where one is asked for, and says how many it holds.
#![tactic(auto)]

ghost use Rattle.std.specs.Prelude.{◌≡◌};

use names::Name;
use restriction_log::Change;
use road_graph::Network;
use snapshot_store::{Snapshot, Store};
use std::alloc::Global;
use std::io;
use std::io::Read;

fn main(rt: HostRuntime) -> io::Result<()> {
    let alloc = rt.alloc();
    let mut text = Vec::new(alloc);
    rt.stdin().read_to_end(&mut text)?;
    match held(alloc, &text) {
        Some(count) => println!(rt; "{count}"),
        None => println!(rt; "no memory"),
    }
}

// A name of a number.
fn named(number: u32) -> Option<Name> {
    let mut digits = *b"n00000";
    let mut left = number;
    for i in 0..5usize {
        digits[5 - i] = b'0' + (left % 10) as u8;
        left /= 10;
    }
    Name::new(&digits).ok()
}

// The greatest network: each of 4,096 nodes with four segments, and a span on each eighth segment.
fn greatest(alloc: Global) -> Option<Network> {
    let mut network = Network::new(alloc);
    for i in 0..4096u32 {
        network.add_node(named(i)?).ok()?;
    }
    for i in 0..16384u32 {
        network.add_segment(named(i)?, i % 4096, (i + 1 + i / 4096) % 4096, 5280).ok()?;
    }
    for i in 0..2048u32 {
        network.add_span(named(i)?, i * 8, 720, 1000).ok()?;
    }
    Some(network)
}

// A posting of the segment of a number, or of a span.
fn change(number: u32) -> Change {
    if number % 2 == 0 {
        Change::Height { segment: number % 4096 * 4, inches: 168 }
    } else {
        Change::Rating { span: number % 2048, permille: 900 }
    }
}

// How many snapshots are held at the end: none, or one of each version.
fn held(alloc: Global, text: &[u8]) -> Option<usize> {
    let network = greatest(alloc)?;
    let mut store = Store::start(alloc, &network).ok()?;
    let mut snapshots = Vec::new(alloc);
    post_each(&network, &mut store, &mut snapshots, !text.is_empty())?;
    Some(snapshots.len())
}

// Posts 4,096 changes, and keeps a snapshot of each version where that is asked for.
fn post_each(network: &Network, store: &mut Store, snapshots: &mut Vec<Snapshot>, keep: bool) -> Option<()>
    requires { network.now ≡ store.old.roads }
{
    'versions: for number in 0..4096u32 {
        store.post(network, change(number)).ok()?;
        if keep {
            snapshots.push(store.snapshot().ok()?).ok()?;
        }
    }
    Some(())
}
"""

# The store stays one of the network that each posting is handed.
INVARIANTS = """use Rattle.std.proofs.Common.{◌≡◌}
use Rattle.hold_snapshots.proofs.post_each.Given as goal

abbrev pub invariant-versions : goal.invariant-versions
invariant-versions l = l.network ≡ l.store.roads
"""


# A process of its own runs the program, so that what it says of its children is said of this one.
PEAK = """import resource, subprocess, sys
subprocess.run([sys.argv[1]])
open(sys.argv[2], "w").write(str(resource.getrusage(resource.RUSAGE_CHILDREN).ru_maxrss))
"""

FILES = {"src/main.rt": MAIN, "proofs/post_each/Invariants.antt": INVARIANTS}


class Held(NamedTuple):
    """What the program prints, and the most memory that it held."""

    printed: str
    megabytes: float


def most_memory(program: str, text: bytes) -> Held:
    """Runs the program on a text."""
    with tempfile.NamedTemporaryFile() as told:
        ran = subprocess.run([sys.executable, "-c", PEAK, program, told.name], input=text, stdout=subprocess.PIPE)
        return Held(ran.stdout.decode().strip(), int(told.read()) / 1024)


def main() -> int:
    """Takes the words of the command line, of which there are none."""
    parser(__doc__).parse_args()
    with tempfile.TemporaryDirectory() as folder:
        program = built(folder, "hold_snapshots", ["snapshot_store"], FILES)
        for text in (b"", b"keep"):
            held = most_memory(program, text)
            print(f"{held.printed} snapshots held: {held.megabytes:.1f} MB at most")
    return 0


if __name__ == "__main__":
    ended(main)
