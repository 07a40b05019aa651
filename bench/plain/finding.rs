//! What is found for an application at a version. What comes again is kept for all actors: distances to a goal, and the nodes
//! that a truck reaches.
use crate::files::Trip;
use crate::limits::{Base, Posted};
use crate::search::{NOWHERE, Roads, Search};
use crate::text::Text;
use std::collections::{HashMap, VecDeque};
use std::sync::{Arc, Mutex};

pub enum What {
    Nothing,
    Routes(Vec<Vec<u32>>),
    Fails(u32),
    Cut(Arc<Cut>),
}

/// Nodes on which a trip is held, and the segments that lead out of them, rising.
pub struct Cut {
    pub leaving: Vec<u32>,
    is_inside: Vec<bool>,
    /// The nodes as a journal lists them.
    pub list: Text,
}

impl Cut {
    fn new(roads: &Roads, (mut nodes, is_inside): (Vec<u32>, Vec<bool>)) -> Cut {
        nodes.sort_unstable();
        let out = nodes.iter().flat_map(|node| roads.outgoing.at(*node)).filter(|way| !is_inside[way.node as usize]);
        let mut leaving: Vec<u32> = out.map(|way| way.number).collect();
        leaving.sort_unstable();
        let mut list = Text::default();
        list.list(&nodes, 1);
        Cut { leaving, is_inside, list }
    }
}

/// A part of the network of which each node leads to each other one, at a version: all its nodes are cut alike.
struct Part {
    version: u32,
    is_inside: Vec<bool>,
    by_truck: Arc<Cut>,
    by_anything: Arc<Cut>,
}

impl Part {
    /// The cut of a trip that begins in this part and cannot leave it for its end.
    fn cut(&self, trip: &Trip) -> Option<Arc<Cut>> {
        if !self.is_inside[trip.from as usize] || self.by_truck.is_inside[trip.to as usize] {
            return None;
        }
        let leads_on = self.by_anything.is_inside[trip.to as usize];
        Some(if leads_on { self.by_truck.clone() } else { self.by_anything.clone() })
    }
}

/// A goal to which a truck went, at how many nodes searches looked for that, and the distances once that was too many.
#[derive(Default)]
struct Goal {
    looked_at: usize,
    kept: Option<Distances>,
}

/// Distances to a goal at a version, over the segments that were open to a truck then.
struct Distances {
    version: u32,
    is_open: Vec<bool>,
    far: Arc<Vec<u64>>,
    /// Whether they answered for a trip after the one for which they were found.
    were_used: bool,
}

impl Distances {
    /// Carries them over to the version of a state, which is not an older one. Whether they are the same there: what was shut
    /// led on no shortest way, and what was opened leads on no shorter one.
    fn carry_over(&mut self, base: &Base, posted: &Posted, truck: u32) -> bool {
        for &number in &posted.on[self.version as usize..] {
            let (segment, is_open) = (&base.file.segments[number as usize], base.meets(posted, truck, number));
            let here = self.far[segment.from as usize];
            let through = self.far[segment.to as usize].saturating_add(segment.feet.into());
            let is_same = if is_open { here <= through } else { here == NOWHERE || here != through };
            if is_open != self.is_open[number as usize] && !is_same {
                return false;
            }
            self.is_open[number as usize] = is_open;
        }
        self.version = posted.version();
        true
    }
}

/// The distances to some goals, and the order in which they were found.
#[derive(Default)]
struct Goals {
    known: HashMap<(u32, u32), Goal>,
    kept: VecDeque<(u32, u32)>,
}

const MOST_KEPT: usize = 256;

/// What all actors find by: the roads, and what is kept of them.
pub struct Kept {
    pub base: Base,
    roads: Roads,
    goals: Mutex<Goals>,
    /// For each truck the part of the network from which it last could not go on.
    parts: Vec<Mutex<Option<Part>>>,
}

impl Kept {
    pub fn new(base: Base) -> Kept {
        let (roads, trucks) = (Roads::new(&base.file), base.file.trucks.len());
        Kept { base, roads, goals: Mutex::default(), parts: (0..trucks).map(|_| Mutex::new(None)).collect() }
    }

    pub fn search(&self) -> Search {
        Search::new(&self.roads)
    }

    pub fn find(&self, search: &mut Search, posted: &Posted, trip: &Trip) -> What {
        if self.base.file.trucks[trip.truck as usize].is_legal() {
            return What::Nothing;
        }
        if trip.asked.is_empty() {
            return self.find_free(search, posted, trip);
        }
        let failing = trip.asked.iter().flatten().copied().find(|segment| !self.base.meets(posted, trip.truck, *segment));
        failing.map_or_else(|| What::Routes(trip.asked.clone()), What::Fails)
    }

    fn find_free(&self, search: &mut Search, posted: &Posted, trip: &Trip) -> What {
        if let Some(cut) = self.known_cut(posted, trip) {
            return What::Cut(cut);
        }
        let meets = |segment| self.base.meets(posted, trip.truck, segment);
        let route = match self.distances(posted, trip) {
            Some(far) => {
                let far = |node: u32| far[node as usize];
                (far(trip.from) != NOWHERE).then(|| self.roads.follow(trip.from, trip.to, far, meets))
            }
            None => {
                let (route, looked_at) = search.route(&self.roads, trip.from, trip.to, meets);
                self.note(posted, trip, looked_at);
                route
            }
        };
        route.map_or_else(|| What::Cut(self.cut(posted, trip)), |route| What::Routes(vec![route]))
    }

    /// The distances to the end of a trip, where they are kept. Those that do not hold any more are found anew where they were
    /// of use, and else dropped.
    fn distances(&self, posted: &Posted, trip: &Trip) -> Option<Arc<Vec<u64>>> {
        let mut goals = self.goals.lock().expect("no thread panics");
        let goal = goals.known.get_mut(&(trip.truck, trip.to))?;
        // an actor that is behind the others leaves them what they know
        let kept = goal.kept.as_mut().filter(|kept| kept.version <= posted.version())?;
        if kept.carry_over(&self.base, posted, trip.truck) {
            kept.were_used = true;
            return Some(kept.far.clone());
        }
        let were_used = kept.were_used;
        *goal = Goal::default();
        drop(goals);
        were_used.then(|| self.keep_distances(posted, trip))
    }

    /// Notes at how many nodes a search looked. The distances to a goal are found and kept once the searches for it looked at
    /// as many nodes as there are.
    fn note(&self, posted: &Posted, trip: &Trip, looked_at: usize) {
        let mut goals = self.goals.lock().expect("no thread panics");
        let goal = goals.known.entry((trip.truck, trip.to)).or_default();
        goal.looked_at += looked_at;
        let is_enough = goal.looked_at >= self.roads.node_count() && goal.kept.is_none();
        drop(goals);
        if is_enough {
            self.keep_distances(posted, trip);
        }
    }

    fn keep_distances(&self, posted: &Posted, trip: &Trip) -> Arc<Vec<u64>> {
        let segments = 0..self.base.file.segments.len() as u32;
        let is_open: Vec<bool> = segments.map(|segment| self.base.meets(posted, trip.truck, segment)).collect();
        let far = Arc::new(self.roads.potentials(trip.to, |segment| is_open[segment as usize]));
        let (key, mut goals) = ((trip.truck, trip.to), self.goals.lock().expect("no thread panics"));
        let found = Distances { version: posted.version(), is_open, far: far.clone(), were_used: false };
        goals.known.entry(key).or_default().kept = Some(found);
        if !goals.kept.contains(&key) {
            goals.kept.push_back(key);
        }
        if goals.kept.len() > MOST_KEPT {
            let oldest = goals.kept.pop_front().expect("some are kept");
            goals.known.remove(&oldest);
        }
        far
    }

    /// The cut of a trip from a part of the network which is known not to lead to its end.
    fn known_cut(&self, posted: &Posted, trip: &Trip) -> Option<Arc<Cut>> {
        let kept = self.parts[trip.truck as usize].lock().expect("no thread panics");
        kept.as_ref().filter(|part| part.version == posted.version())?.cut(trip)
    }

    /// The cut of a trip for which there is no route.
    fn cut(&self, posted: &Posted, trip: &Trip) -> Arc<Cut> {
        let (roads, meets) = (&self.roads, |segment| self.base.meets(posted, trip.truck, segment));
        let (onward, back) = (roads.outgoing.reach(trip.from, meets), roads.incoming.reach(trip.from, meets));
        let is_inside = onward.1.iter().zip(back.1).map(|(onward, back)| *onward && back).collect();
        let by_truck = Arc::new(Cut::new(roads, onward));
        let by_anything = Arc::new(Cut::new(roads, roads.outgoing.reach(trip.from, |_| true)));
        let part = Part { version: posted.version(), is_inside, by_truck, by_anything };
        let cut = part.cut(trip).expect("the trip begins in this part");
        *self.parts[trip.truck as usize].lock().expect("no thread panics") = Some(part);
        cut
    }
}
