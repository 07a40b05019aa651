//! Searches for routes: backwards from the end of a trip, led by landmarks.
use crate::files::{DayFile, Segment};
use std::cmp::Reverse;
use std::collections::BinaryHeap;
use std::sync::OnceLock;
use std::sync::atomic::{AtomicUsize, Ordering};

/// How far it is where nothing leads there.
pub const NOWHERE: u64 = u64::MAX;

/// A segment as the node at one of its ends sees it.
#[derive(Clone, Copy)]
pub struct Way {
    pub number: u32,
    pub node: u32,
    pub feet: u32,
}

/// The ways at each node, one node's behind another's.
pub struct Ways {
    from: Vec<u32>,
    ways: Vec<Way>,
}

impl Ways {
    /// The ways at each node: `ends` gives the node that sees a segment, and the one that it leads to.
    fn new(file: &DayFile, ends: impl Fn(&Segment) -> (u32, u32)) -> Ways {
        let mut from = vec![0; file.node_count() + 1];
        for segment in &file.segments {
            from[ends(segment).0 as usize + 1] += 1;
        }
        for node in 1..from.len() {
            from[node] += from[node - 1];
        }
        let (mut free, mut ways) = (from.clone(), vec![Way { number: 0, node: 0, feet: 0 }; file.segments.len()]);
        for (number, segment) in file.segments.iter().enumerate() {
            let (at, node) = ends(segment);
            ways[free[at as usize] as usize] = Way { number: number as u32, node, feet: segment.feet };
            free[at as usize] += 1;
        }
        Ways { from, ways }
    }

    pub fn at(&self, node: u32) -> &[Way] {
        &self.ways[self.from[node as usize] as usize..self.from[node as usize + 1] as usize]
    }

    /// The nodes to which passable ways lead from a node, and a flag for each node whether it is one of them.
    pub fn reach(&self, from: u32, mut meets: impl FnMut(u32) -> bool) -> (Vec<u32>, Vec<bool>) {
        let mut reached = vec![false; self.from.len() - 1];
        reached[from as usize] = true;
        let (mut nodes, mut at) = (vec![from], 0);
        while at < nodes.len() {
            for way in self.at(nodes[at]) {
                if !reached[way.node as usize] && meets(way.number) {
                    reached[way.node as usize] = true;
                    nodes.push(way.node);
                }
            }
            at += 1;
        }
        (nodes, reached)
    }
}

/// Nodes that wait, the nearest first: how far each is, and in the lowest bits its number.
#[derive(Default)]
struct Queue(BinaryHeap<Reverse<u64>>);

impl Queue {
    const NODE_BITS: u32 = 12;

    fn push(&mut self, far: u64, node: u32) {
        self.0.push(Reverse(far << Queue::NODE_BITS | u64::from(node)));
    }

    fn pop(&mut self) -> Option<(u64, u32)> {
        let Reverse(both) = self.0.pop()?;
        Some((both >> Queue::NODE_BITS, both as u32 & ((1 << Queue::NODE_BITS) - 1)))
    }
}

/// How far it is to each node over passable ways.
fn distances(ways: &Ways, from: u32, mut meets: impl FnMut(u32) -> bool) -> Vec<u64> {
    let (mut far, mut queue) = (vec![NOWHERE; ways.from.len() - 1], Queue::default());
    far[from as usize] = 0;
    queue.push(0, from);
    while let Some((length, node)) = queue.pop() {
        if length > far[node as usize] {
            continue;
        }
        for way in ways.at(node) {
            let length = length + u64::from(way.feet);
            if length < far[way.node as usize] && meets(way.number) {
                far[way.node as usize] = length;
                queue.push(length, way.node);
            }
        }
    }
    far
}

const LANDMARKS: usize = 16;

/// For each node how far each landmark is over all segments, and how far the node is from each landmark. What is farther
/// than a number can say counts as the greatest number: no bound is too great by that.
struct Landmarks(Vec<[[u32; LANDMARKS]; 2]>);

impl Landmarks {
    /// Each landmark is the node that is farthest from those before it.
    fn new(roads: &Roads) -> Landmarks {
        let short = |far: u64| u32::try_from(far).unwrap_or(u32::MAX);
        let mut rows = vec![[[0; LANDMARKS]; 2]; roads.node_count()];
        let mut nearest = distances(&roads.outgoing, 0, |_| true);
        for column in 0..LANDMARKS {
            let reached = (0..rows.len()).filter(|node| nearest[*node] != NOWHERE);
            let landmark = reached.max_by_key(|node| nearest[*node]).unwrap_or(0) as u32;
            let (to, from) =
                (distances(&roads.incoming, landmark, |_| true), distances(&roads.outgoing, landmark, |_| true));
            for (node, row) in rows.iter_mut().enumerate() {
                row[0][column] = short(to[node]);
                row[1][column] = short(from[node]);
                nearest[node] = nearest[node].min(from[node]);
            }
        }
        Landmarks(rows)
    }

    /// A length that no way from one node to another falls short of.
    fn bound(&self, from: u32, to: u32) -> u64 {
        let ([here, back], [there, onward]) = (self.0[from as usize], self.0[to as usize]);
        let mut most = 0;
        for column in 0..LANDMARKS {
            most = most.max(here[column].saturating_sub(there[column])).max(onward[column].saturating_sub(back[column]));
        }
        most.into()
    }
}

/// The network, which stays as it is all day.
pub struct Roads {
    pub incoming: Ways,
    pub outgoing: Ways,
    landmarks: OnceLock<Landmarks>,
    /// How many nodes were looked at without landmarks, by all searches.
    looked_at: AtomicUsize,
}

impl Roads {
    pub fn new(file: &DayFile) -> Roads {
        let (incoming, outgoing) = (Ways::new(file, |s| (s.to, s.from)), Ways::new(file, |s| (s.from, s.to)));
        Roads { incoming, outgoing, landmarks: OnceLock::new(), looked_at: AtomicUsize::new(0) }
    }

    pub fn node_count(&self) -> usize {
        self.outgoing.from.len() - 1
    }

    /// How far each node is from the end of a trip.
    pub fn potentials(&self, to: u32, meets: impl FnMut(u32) -> bool) -> Vec<u64> {
        distances(&self.incoming, to, meets)
    }

    /// Makes the landmarks, once searches without them looked at as many nodes as it takes to make them.
    fn count(&self, nodes: usize) {
        let before = self.looked_at.fetch_add(nodes, Ordering::Relaxed);
        if before + nodes > (2 * LANDMARKS + 1) * self.node_count() {
            self.landmarks.get_or_init(|| Landmarks::new(self));
        }
    }

    /// The route from a node on along which the distances to the end of the trip fall as they should: of the shortest routes
    /// the first in the order of lists.
    pub fn follow(&self, from: u32, to: u32, far: impl Fn(u32) -> u64, mut meets: impl FnMut(u32) -> bool) -> Vec<u32> {
        let (mut route, mut node, mut left) = (Vec::new(), from, far(from));
        while node != to {
            let leads_on = |way: &&Way| {
                let feet = u64::from(way.feet);
                feet <= left && far(way.node) == left - feet && meets(way.number)
            };
            let way = self.outgoing.at(node).iter().find(leads_on).expect("a node that was reached leads on");
            route.push(way.number);
            (node, left) = (way.node, left - u64::from(way.feet));
        }
        route
    }
}

/// How far a node is from the end of the trip, as far as is known in this turn, and the turn in which that is the least.
#[derive(Clone, Copy)]
struct Reached {
    far: u64,
    turn: u32,
    settled: u32,
}

/// Room for searches of one thread, which is used again.
pub struct Search {
    reached: Vec<Reached>,
    turn: u32,
    queue: Queue,
}

impl Search {
    pub fn new(roads: &Roads) -> Search {
        let reached = vec![Reached { far: NOWHERE, turn: 0, settled: 0 }; roads.node_count()];
        Search { reached, turn: 0, queue: Queue::default() }
    }

    /// The shortest route, the first in the order of lists among equals, and at how many nodes it took a look. Whether a
    /// segment may be passed is asked only where it would shorten a way.
    pub fn route(
        &mut self,
        roads: &Roads,
        from: u32,
        to: u32,
        mut meets: impl FnMut(u32) -> bool,
    ) -> (Option<Vec<u32>>, usize) {
        let landmarks = roads.landmarks.get();
        let bound = |node| landmarks.map_or(0, |landmarks| landmarks.bound(from, node));
        let looked_at = self.settle(roads, from, to, bound, &mut meets);
        if landmarks.is_none() {
            roads.count(looked_at);
        }
        let far = |node| self.far(node);
        let route = (far(from) != NOWHERE).then(|| roads.follow(from, to, far, meets));
        (route, looked_at)
    }

    fn far(&self, node: u32) -> u64 {
        let it = self.reached[node as usize];
        if it.turn == self.turn { it.far } else { NOWHERE }
    }

    /// Looks backwards from the end at the nodes through which the shortest route may lead, until all that are on one as short
    /// have their distances. No way from the start to a node is shorter than its bound, and no bound falls by more along a way
    /// than the way's feet; so the first time that a node comes, it comes with its distance.
    fn settle(
        &mut self,
        roads: &Roads,
        from: u32,
        to: u32,
        bound: impl Fn(u32) -> u64,
        mut meets: impl FnMut(u32) -> bool,
    ) -> usize {
        self.turn += 1;
        self.queue.0.clear();
        let (turn, mut most, mut looked_at) = (self.turn, NOWHERE, 0);
        self.reached[to as usize] = Reached { far: 0, turn, settled: 0 };
        self.queue.push(bound(to), to);
        while let Some((least, node)) = self.queue.pop() {
            if least > most {
                break;
            }
            let here = &mut self.reached[node as usize];
            if here.settled == turn {
                continue;
            }
            here.settled = turn;
            looked_at += 1;
            let far = here.far;
            for way in roads.incoming.at(node) {
                let (length, there) = (far + u64::from(way.feet), &mut self.reached[way.node as usize]);
                if there.turn == turn && length >= there.far {
                    continue;
                }
                let least = length + bound(way.node);
                if least <= most && meets(way.number) {
                    *there = Reached { far: length, turn, settled: 0 };
                    self.queue.push(least, way.node);
                    if way.node == from {
                        most = length;
                    }
                }
            }
        }
        looked_at
    }
}
