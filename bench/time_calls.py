#!/usr/bin/env python3
"""Times single calls, on one processor: the peaks of trains on spans, and a search for a route.

    bench/time_calls.py

A program in a temporary folder, over a copy of the crates that it needs, has 64 trains of 32 axles, each with spacings
of 40 to 93 in and axles of 20,000 to 62,500 lb, and finds the peak moment of each on spans of four lengths, alone and
with its place, and the peak end shear. It also searches a grid of 41 by 41 nodes, with segments of 1,000 to 8,999 ft
both ways, from corner to corner: with the potentials of all nodes (`search`), and for the start alone
(`shortest_walk`). It is run five times, and this prints the best of each as tables in Markdown. The kit proves the
program before it builds it, and first each crate below it that is not kept as proved. What it measures rests on how
busy the machine is.
"""
import subprocess
import sys
import tempfile
from collections.abc import Mapping, Sequence

from programs import built, ended, parser

MAIN = """// Times the peaks of trains of 32 axles and searches on a grid of 41 by 41 nodes, in nanoseconds a call.
#![tactic(auto)]

mod grid;
mod trains;

use std::io;

fn main(rt: HostRuntime) -> io::Result<()> {
    trains::time_each(&rt)?;
    grid::time_each(&rt)
}
"""

TRAINS = """// The peaks of trains.

ghost use Rattle.std.specs.Prelude.{◌≤◌};

use axle_train::{Axle, Train};
use std::alloc::Global;
use std::io;
use std::time::Instant;

const ROUNDS: u32 = 400;

pub fn time_each(rt: &HostRuntime) -> io::Result<()> {
    let Some(trains) = dense_trains(rt.alloc()) else {
        return println!(rt; "no memory");
    };
    time_on(rt, &trains, 6000)?;
    time_on(rt, &trains, 3000)?;
    time_on(rt, &trains, 1200)?;
    time_on(rt, &trains, 600)
}

// The next of a row of numbers that look like chance.
fn next(state: &mut u32) -> u32 {
    *state = state.wrapping_mul(1664525).wrapping_add(1013904223);
    *state >> 8
}

fn dense_trains(alloc: Global) -> Option<Vec<Train>> {
    let mut trains = Vec::new(alloc);
    let mut state = 1;
    'trains: for _ in 0..64u32 {
        trains.push(dense_train(&mut state)?).ok()?;
    }
    Some(trains)
}

fn dense_train(state: &mut u32) -> Option<Train> {
    let mut axles = [Axle { place: 0, weight: 20000 }; 32];
    let mut place = 0u32;
    'axles: for i in 0..32usize {
        axles[i] = Axle { place, weight: 20000 + next(state) % 42501 };
        place = place.wrapping_add(40 + next(state) % 54);
    }
    Train::new(&axles).ok()
}

fn time_on(rt: &HostRuntime, trains: &[Train], span: u32) -> io::Result<()>
    requires some { 1 ≤ span }
    requires long { span ≤ 6000 }
{
    let began = Instant::now(rt)?;
    let values = each_value(trains, span);
    let second = Instant::now(rt)?;
    let places = each_place(trains, span);
    let third = Instant::now(rt)?;
    let shears = each_shear(trains, span);
    let ended = Instant::now(rt)?;
    let value = second.duration_since(began).as_nanos();
    let place = third.duration_since(second).as_nanos();
    let shear = ended.duration_since(third).as_nanos();
    println!(rt; "{span} {value} {place} {shear} {values} {places} {shears}")
}

// What the answers come to keeps the compiler from leaving out a call.
fn each_value(trains: &[Train], span: u32) -> u128
    requires some { 1 ≤ span }
    requires long { span ≤ 6000 }
{
    let mut mixed = 0u128;
    'rounds: for _ in 0..ROUNDS {
        'trains: for train in trains {
            mixed = mixed.wrapping_add(moment_peak::value(train, span).num());
        }
    }
    mixed
}

fn each_place(trains: &[Train], span: u32) -> u128
    requires some { 1 ≤ span }
    requires long { span ≤ 6000 }
{
    let mut mixed = 0u128;
    'rounds: for _ in 0..ROUNDS {
        'trains: for train in trains {
            let found = moment_peak::peak(train, span);
            mixed = mixed.wrapping_add(found.value.num() ^ u128::from(found.place.section));
        }
    }
    mixed
}

fn each_shear(trains: &[Train], span: u32) -> u128
    requires some { 1 ≤ span }
    requires long { span ≤ 6000 }
{
    let mut mixed = 0u128;
    'rounds: for _ in 0..ROUNDS {
        'trains: for train in trains {
            mixed = mixed.wrapping_add(shear_peak::peak(train, span).value.num());
        }
    }
    mixed
}
"""

GRID = """// Searches on a grid of 41 by 41 nodes.

ghost use Rattle.std.specs.Prelude.{◌≡◌, ◌<◌, length, IfSome};

use names::Name;
use road_graph::Network;
use route_search::{Heights, Passable, Trip, search, shortest_walk};
use std::alloc::Global;
use std::io;
use std::time::Instant;

const SIDE: u32 = 41;

const ROUNDS: u32 = 200;

pub fn time_each(rt: &HostRuntime) -> io::Result<()> {
    let alloc = rt.alloc();
    let Some(network) = grid(alloc) else {
        return println!(rt; "no memory");
    };
    if network.nodes() < SIDE * SIDE {
        return println!(rt; "no grid");
    }
    let Some(passable) = all_passable(alloc, &network) else {
        return println!(rt; "no memory");
    };
    time_both(rt, &network, &passable)
}

// The next of a row of numbers that look like chance.
fn next(state: &mut u32) -> u32 {
    *state = state.wrapping_mul(1664525).wrapping_add(1013904223);
    *state >> 8
}

// A name of a number.
fn named(number: u32) -> Option<Name> {
    let mut digits = *b"n00000";
    let mut left = number;
    for i in 0..5usize {
        digits[5 - i] = b'0' + (left % 10) as u8;
        left /= 10;
    }
    Name::new(&digits).ok()
}

fn grid(alloc: Global) -> Option<Network> {
    let mut network = Network::new(alloc);
    'nodes: for node in 0..SIDE * SIDE {
        network.add_node(named(node)?).ok()?;
    }
    let mut state = 1;
    'roads: for node in 0..SIDE * SIDE {
        if node % SIDE + 1 < SIDE {
            both_ways(&mut network, node, node + 1, &mut state)?;
        }
        if node + SIDE < SIDE * SIDE {
            both_ways(&mut network, node, node + SIDE, &mut state)?;
        }
    }
    Some(network)
}

fn both_ways(network: &mut Network, a: u32, b: u32, state: &mut u32) -> Option<()> {
    let feet = 1000 + next(state) % 8000;
    let name = named(network.segments())?;
    network.add_segment(name, a, b, feet).ok()?;
    let name = named(network.segments())?;
    network.add_segment(name, b, a, feet).ok()?;
    Some(())
}

fn all_passable(alloc: Global, network: &Network) -> Option<Vec<bool>>
    ensures { IfSome result (λ passable. length passable.items ≡ length network.now.segments) }
{
    let mut passable = Vec::new(alloc);
    passable.resize(network.segments() as usize, true).ok()?;
    Some(passable)
}

fn time_both(rt: &HostRuntime, network: &Network, passable: &[bool]) -> io::Result<()>
    requires nodes { 1680 < length network.now.nodes }
    requires passable { length passable.now ≡ length network.now.segments }
{
    let began = Instant::now(rt)?;
    let searched = search_each(rt.alloc(), network, passable);
    let middle = Instant::now(rt)?;
    let walked = walk_each(rt.alloc(), network, passable);
    let ended = Instant::now(rt)?;
    let search = middle.duration_since(began).as_nanos();
    let walk = ended.duration_since(middle).as_nanos();
    println!(rt; "41 {search} {walk} {searched} {walked}")
}

// How many searches were answered.
fn search_each(alloc: Global, network: &Network, passable: &[bool]) -> u32
    requires nodes { 1680 < length network.now.nodes }
    requires passable { length passable.now ≡ length network.now.segments }
{
    let mut answered = 0u32;
    'rounds: for _ in 0..ROUNDS {
        if search(alloc, network, passable, 0, 1680).is_ok() {
            answered = answered.wrapping_add(1);
        }
    }
    answered
}

fn walk_each(alloc: Global, network: &Network, passable: &[bool]) -> u32
    requires nodes { 1680 < length network.now.nodes }
    requires passable { length passable.now ≡ length network.now.segments }
{
    network.lists_are_in_order();
    let roads = Passable {
        network,
        flags: passable,
    };
    let trip = Trip {
        roads,
        from: 0,
        to: 1680,
    };
    let heights = Heights::none(alloc);
    let mut answered = 0u32;
    'rounds: for _ in 0..ROUNDS {
        if shortest_walk(alloc, &trip, &heights).is_ok() {
            answered = answered.wrapping_add(1);
        }
    }
    answered
}
"""

TRAINS_TIMED, ROUNDS_OF_TRAINS, ROUNDS_OF_SEARCHES = 64, 400, 200
FILES = {"src/main.rt": MAIN, "src/trains.rt": TRAINS, "src/grid.rt": GRID}
SIDE_OF_GRID = "41"


def best(program: str) -> dict[str, list[int]]:
    """The least nanoseconds of each row, by its first word."""
    fastest: dict[str, list[int]] = {}
    for _ in range(5):
        ran = subprocess.run([program], stdin=subprocess.DEVNULL, stdout=subprocess.PIPE, check=True)
        for line in ran.stdout.decode().splitlines():
            name, *numbers = line.split(" ")
            if not name.isdigit():
                sys.exit(f"the program says: {line}")
            times = [int(number) for number in numbers[:len(numbers) // 2]]
            fastest[name] = [min(pair) for pair in zip(fastest.get(name, times), times)]
    return fastest


def tell_peaks(times_on: Mapping[str, Sequence[int]]) -> None:
    """Prints the table of peaks: a column for each length of a span."""
    print("| Microseconds for 32 axles | " + " | ".join(f"{span} in" for span in times_on) + " |")
    print("|---|" + "---|" * len(times_on))
    for at, name in enumerate(("peak moment", "peak moment with its place", "peak end shear")):
        cells = [f"{times[at] / 1000 / TRAINS_TIMED / ROUNDS_OF_TRAINS:.2f}" for times in times_on.values()]
        print(f"| {name} | {' | '.join(cells)} |")


def tell_searches(times: Sequence[int]) -> None:
    """Prints the table of searches."""
    print("\n| A search from corner to corner of 41 by 41 nodes | Microseconds |\n|---|---|")
    for name, time in zip(("with all potentials", "for the start alone"), times):
        print(f"| {name} | {time / 1000 / ROUNDS_OF_SEARCHES:.1f} |")


def main() -> int:
    """Takes the words of the command line, of which there are none."""
    parser(__doc__).parse_args()
    with tempfile.TemporaryDirectory() as folder:
        fastest = best(built(folder, "time_calls", ("moment_peak", "shear_peak", "route_search"), FILES))
    searches = fastest.pop(SIDE_OF_GRID)
    tell_peaks(fastest)
    tell_searches(searches)
    return 0


if __name__ == "__main__":
    ended(main)
