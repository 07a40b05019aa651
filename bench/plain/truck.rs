//! Trucks: the federal limits of their axle groups, and their peaks on simple spans.

pub const HS20: [(u64, u64); 3] = [(0, 8000), (168, 32000), (336, 32000)];

#[derive(Clone, Copy)]
pub struct Frac {
    pub num: u128,
    pub den: u128,
}

impl Frac {
    pub fn lowest(self) -> Frac {
        let by = gcd(self.num, self.den);
        Frac { num: self.num / by, den: self.den / by }
    }

    /// The least rating in per mille of another fraction that this one is within.
    pub fn least_rating(self, of: Frac) -> u32 {
        (1000 * self.num * of.den).div_ceil(of.num * self.den).try_into().unwrap_or(u32::MAX)
    }
}

pub fn gcd(mut a: u128, mut b: u128) -> u128 {
    while b != 0 {
        if a <= u128::from(u64::MAX) && b <= u128::from(u64::MAX) {
            let (mut x, mut y) = (a as u64, b as u64);
            while y != 0 {
                (x, y) = (y, x % y);
            }
            return u128::from(x);
        }
        (a, b) = (b, a % b);
    }
    a
}

pub struct Group {
    pub first: usize,
    pub last: usize,
    pub weight: u64,
    pub limit: u64,
    pub rule: &'static str,
}

#[derive(Clone, Copy)]
pub struct Effects {
    pub moment: Frac,
    pub shear: Frac,
}

pub struct Place {
    pub axle: usize,
    pub run: (usize, usize),
    pub scale: i128,
    pub lead: i128,
    pub section: i128,
}

pub struct Train {
    pub axles: Vec<(u64, u64)>,
    /// In floating point each axle's place, and the weight and the weight times place of the axles in front of it.
    places: Vec<f64>,
    fronts: Vec<f64>,
    arms: Vec<f64>,
    /// The weight of the axles in front of each axle, and their weight times place.
    weights: Vec<u64>,
    turns: Vec<u64>,
}

impl Train {
    pub fn new(axles: Vec<(u64, u64)>) -> Train {
        let (mut weights, mut turns) = (vec![0], vec![0]);
        for (i, &(place, weight)) in axles.iter().enumerate() {
            weights.push(weights[i] + weight);
            turns.push(turns[i] + weight * place);
        }
        let places = axles.iter().map(|axle| axle.0 as f64).collect();
        let [fronts, arms] = [&weights, &turns].map(|sums| sums.iter().map(|sum| *sum as f64).collect());
        Train { axles, places, fronts, arms, weights, turns }
    }

    pub fn gross(&self) -> u64 {
        self.weights[self.axles.len()]
    }

    fn limit(&self, i: usize, j: usize) -> (u64, &'static str) {
        let at = |k: usize| self.axles[k].0;
        let (spread, count) = (at(j) - at(i), (j - i + 1) as u64);
        if spread <= 40 {
            return (20000, "single");
        }
        if spread <= 96 {
            return (34000, "tandem");
        }
        let (over, base) = (spread * count, 12 * (count - 1));
        let limit = 500 * ((2 * over + base - 1) / (2 * base) + 12 * count + 36);
        let is_tandem = |a: usize| (41..=96).contains(&(at(a + 1) - at(a)));
        if count == 4 && spread >= 432 && limit < 68000 && is_tandem(i) && is_tandem(i + 2) {
            return (68000, "two-tandem");
        }
        (limit, "formula")
    }

    pub fn groups(&self) -> impl Iterator<Item = Group> + '_ {
        let count = self.axles.len();
        (0..count).flat_map(move |first| {
            (first..count).map(move |last| {
                let (limit, rule) = self.limit(first, last);
                Group { first, last, weight: self.weights[last + 1] - self.weights[first], limit, rule }
            })
        })
    }

    pub fn worst(&self) -> Group {
        self.groups().reduce(|a, b| if b.weight * a.limit > a.weight * b.limit { b } else { a }).expect("a group")
    }

    /// The heaviest group of exactly three axles that are over 96 in and at most 144 in apart.
    pub fn heaviest_tridem(&self) -> Option<Group> {
        let spread = |it: &Group| self.axles[it.last].0 - self.axles[it.first].0;
        let tridems = self.groups().filter(|it| it.last == it.first + 2 && (97..=144).contains(&spread(it)));
        tridems.reduce(|a, b| if b.weight > a.weight { b } else { a })
    }

    /// The runs of axles that can be exactly those on the span, as the train rolls over it.
    fn runs(&self, span: u64) -> Vec<(usize, usize)> {
        let (count, at) = (self.axles.len(), |k: usize| self.axles[k].0);
        let (mut first, mut last, mut runs) = (0, 0, Vec::with_capacity(2 * count));
        runs.push((0, 0));
        while first + 1 < count || last + 1 < count {
            if last + 1 < count && at(last + 1) - at(first) <= span {
                last += 1;
            } else if first < last {
                first += 1;
            } else {
                (first, last) = (first + 1, last + 1);
            }
            runs.push((first, last));
        }
        runs
    }

    /// Four times the run's weight and the span, times the run's greatest moment under one of its axles.
    fn value(&self, (first, last): (usize, usize), axle: usize, span: u64) -> i128 {
        let (weight, turn) = self.run((first, last));
        let (arm, before) = (self.arm(weight, turn, axle, span), self.before(first, axle));
        i128::from(arm) * i128::from(arm) - 4 * i128::from(weight) * i128::from(span) * i128::from(before)
    }

    fn run(&self, (first, last): (usize, usize)) -> (u64, u64) {
        (self.weights[last + 1] - self.weights[first], self.turns[last + 1] - self.turns[first])
    }

    fn arm(&self, weight: u64, turn: u64, axle: usize, span: u64) -> u64 {
        weight * (span + self.axles[axle].0) - turn
    }

    /// The moment about an axle of the run's axles in front of it.
    fn before(&self, first: usize, axle: usize) -> u64 {
        (self.weights[axle] - self.weights[first]) * self.axles[axle].0 - (self.turns[axle] - self.turns[first])
    }

    /// The greatest value, over the weight of its run. The heaviest run comes first, so that most others are too light for the
    /// peak; and only what is about as great in floating point is compared exactly.
    fn peak(&self, span: u64) -> (i128, i128) {
        let mut runs = self.runs(span);
        let heaviest = (0..runs.len()).max_by_key(|at| self.run(runs[*at]).0).expect("a run");
        runs.swap(0, heaviest);
        let (mut most, mut over, mut about, mut room) = (-1, 1, 0.0_f64, [0.0; 32]);
        for run in runs {
            let (weight, turn) = self.run(run);
            // no moment is above the weight times a quarter of the span
            if (weight * span * span) as f64 <= about {
                continue;
            }
            let guesses = self.guesses(run, span, &mut room);
            let greatest = greatest(guesses);
            if greatest < about {
                continue;
            }
            about = if greatest * (1.0 - 1e-9) > about { greatest * (1.0 - 1e-9) } else { about };
            for (axle, _) in (run.0..).zip(guesses).filter(|(_, guess)| **guess >= about) {
                let arm = i128::from(self.arm(weight, turn, axle, span));
                let value = arm * arm - 4 * i128::from(weight * span) * i128::from(self.before(run.0, axle));
                if value * over > most * i128::from(weight) {
                    (most, over) = (value, i128::from(weight));
                }
            }
        }
        (most, over)
    }

    /// For each axle of a run its value over the run's weight, about.
    fn guesses<'a>(&self, (first, last): (usize, usize), span: u64, room: &'a mut [f64; 32]) -> &'a [f64] {
        let (weight, turn) = self.run((first, last));
        let (heavy, inverse, far) = (weight as f64, 1.0 / weight as f64, 4.0 * span as f64);
        let (reach, front, arm_of_front) = ((weight * span) as f64 - turn as f64, self.fronts[first], self.arms[first]);
        let (places, fronts, arms) = (&self.places[first..=last], &self.fronts[first..=last], &self.arms[first..=last]);
        let room = &mut room[..places.len()];
        for (((guess, place), weight), turn) in room.iter_mut().zip(places).zip(fronts).zip(arms) {
            let arm = reach + heavy * place;
            *guess = arm * arm * inverse - far * ((weight - front) * place - (turn - arm_of_front));
        }
        room
    }

    pub fn moment(&self, span: u64) -> Frac {
        let (most, over) = self.peak(span);
        Frac { num: most as u128, den: 4 * over as u128 * u128::from(span) }
    }

    /// The peak moment, and the first vertex that reaches it, by axle and then by run: all runs with one centre have the same.
    pub fn moment_with_place(&self, span: u64) -> (Frac, Place) {
        let (most, over) = self.peak(span);
        (Frac { num: most as u128, den: 4 * over as u128 * u128::from(span) }, self.place(span, most, over))
    }

    fn place(&self, span: u64, most: i128, over: i128) -> Place {
        let runs = self.runs(span);
        let count = self.axles.len();
        for axle in 0..count {
            let reach: Vec<(u64, u64)> = runs
                .iter()
                .filter(|r| (r.0..=r.1).contains(&axle) && self.value(**r, axle, span) * over == most * i128::from(self.run(**r).0))
                .map(|r| self.run(*r))
                .collect();
            let all = (0..=axle).flat_map(|f| (axle..count).map(move |l| (f, l)));
            for run in all.filter(|_| !reach.is_empty()) {
                let (weight, turn) = self.run(run);
                if reach.iter().any(|&(w, t)| t * weight == turn * w) {
                    let (w, t, s, p) = (weight as i128, turn as i128, span as i128, self.axles[axle].0 as i128);
                    let (scale, lead, section) = (2 * w, w * (s - p) - t, w * (s + p) - t);
                    let by = gcd(gcd(scale as u128, lead.unsigned_abs()), section as u128) as i128;
                    return Place { axle, run, scale: scale / by, lead: lead / by, section: section / by };
                }
            }
        }
        unreachable!("some vertex reaches the peak")
    }

    /// The peak end shear, and the lead and the support at which it is reached first.
    pub fn shear(&self, span: u64) -> (Frac, i64, &'static str) {
        let (count, at) = (self.axles.len(), |k: usize| self.axles[k].0);
        let (mut most, mut lead, mut side) = (0, 0, "left");
        let mut end = 0;
        for i in 0..count {
            while end < count && at(end) - at(i) <= span {
                end += 1;
            }
            let total = (self.weights[end] - self.weights[i]) * (span + at(i)) - (self.turns[end] - self.turns[i]);
            if total > most {
                (most, lead) = (total, -(at(i) as i64));
            }
        }
        let mut first = 0;
        for i in 0..count {
            while at(i) - at(first) > span {
                first += 1;
            }
            let total = self.turns[i + 1] - self.turns[first] + self.weights[i + 1] * span
                - self.weights[first] * span
                - (self.weights[i + 1] - self.weights[first]) * at(i);
            if total > most {
                (most, lead, side) = (total, span as i64 - at(i) as i64, "right");
            }
        }
        (Frac { num: u128::from(most), den: u128::from(span) }, lead, side)
    }

    pub fn effects(&self, span: u64) -> Effects {
        Effects { moment: self.moment(span), shear: self.shear(span).0 }
    }
}

/// The greatest of some numbers: of four rows of them at a time, which needs no order.
fn greatest(numbers: &[f64]) -> f64 {
    let more = |a: f64, b: f64| if b > a { b } else { a };
    let (mut rows, chunks) = ([0.0; 4], numbers.chunks_exact(4));
    let rest = chunks.remainder().iter().copied().fold(0.0, more);
    for chunk in chunks {
        for (row, number) in rows.iter_mut().zip(chunk) {
            *row = more(*row, *number);
        }
    }
    rows.into_iter().fold(rest, more)
}

pub struct Truck {
    pub name: Vec<u8>,
    pub height: u32,
    pub width: u32,
    pub length: u32,
    pub train: Train,
    pub worst: Group,
    pub tridem: Option<Group>,
}

impl Truck {
    pub fn is_legal(&self) -> bool {
        self.worst.weight <= self.worst.limit && self.train.gross() <= 80000 && self.width <= 102 && self.height <= 162
    }
}
