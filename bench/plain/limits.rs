//! What is posted on the roads, and which limits of a segment a truck fails. What is found of that is kept for all actors.
use crate::files::{DayFile, Posting, RATING, TRIDEM, WHATS};
use crate::text::Text;
use crate::truck::{HS20, Train};
use std::sync::OnceLock;
use std::sync::atomic::{AtomicU16, Ordering};

/// What is posted at a version. The office has one, and each actor one of its own, which is brought up to date at a snapshot.
pub struct Posted {
    /// For each segment its limits, in the order of `WHATS`.
    limits: Vec<[u32; 7]>,
    ratings: Vec<u32>,
    /// For each segment how often something was posted on it or on one of its spans.
    changes: Vec<u16>,
    /// The segment of each posting so far. There are as many as the version says.
    pub on: Vec<u32>,
}

impl Posted {
    pub fn new(file: &DayFile) -> Posted {
        Posted {
            limits: file.segments.iter().map(|segment| segment.limits).collect(),
            ratings: file.spans.iter().map(|span| span.rating).collect(),
            changes: vec![0; file.segments.len()],
            on: Vec::new(),
        }
    }

    pub fn version(&self) -> u32 {
        self.on.len() as u32
    }

    /// Posts a limit, and gives the segment on which it is.
    pub fn post(&mut self, file: &DayFile, posting: Posting) -> u32 {
        let Posting { item, what, value } = posting;
        let segment = if what == RATING { file.spans[item as usize].segment } else { item };
        if what == RATING {
            self.ratings[item as usize] = value;
        } else {
            self.limits[item as usize][what] = value;
        }
        self.changes[segment as usize] += 1;
        self.on.push(segment);
        segment
    }
}

/// The first limit of a segment that a truck fails.
pub enum Limit {
    Closed,
    Posted(usize),
    Group,
    Tridem,
    Moment(u32),
    Shear(u32),
}

/// The least ratings of a span that carry a truck's peak moment and its peak end shear.
#[derive(Clone, Copy)]
struct Needs {
    moment: u32,
    shear: u32,
}

/// The roads and trucks of a day, and what is kept of them by all threads.
pub struct Base {
    pub file: DayFile,
    design: Train,
    /// The spans of all segments, one segment's behind another's, and where those of each segment begin.
    spans: Vec<u32>,
    spans_from: Vec<u16>,
    /// For each length of span that there is its column in the table of needs.
    columns: Vec<u16>,
    lengths: usize,
    /// For each truck and length of span what the truck needs, once it was asked for.
    needs: Vec<OnceLock<Needs>>,
    /// For each truck and segment whether the truck may pass it, in the lowest bit, and above it one more than the count of
    /// postings on the segment at which this holds. So no flag is ever wrong, whatever is posted and whoever reads it.
    flags: Vec<AtomicU16>,
}

const MOST_INCHES: usize = 6000;

impl Base {
    pub fn new(file: DayFile) -> Base {
        let (mut columns, mut lengths) = (vec![u16::MAX; MOST_INCHES + 1], 0);
        for span in &file.spans {
            let column = &mut columns[span.inches as usize];
            if *column == u16::MAX {
                *column = lengths;
                lengths += 1;
            }
        }
        let (mut spans, mut spans_from) = (Vec::with_capacity(file.spans.len()), vec![0]);
        for segment in &file.segments {
            spans.extend_from_slice(&segment.spans);
            spans_from.push(spans.len() as u16);
        }
        let (trucks, lengths) = (file.trucks.len(), usize::from(lengths));
        let needs = (0..trucks * lengths).map(|_| OnceLock::new()).collect();
        let flags = (0..trucks * file.segments.len()).map(|_| AtomicU16::new(0)).collect();
        Base { file, design: Train::new(HS20.to_vec()), spans, spans_from, columns, lengths, needs, flags }
    }

    fn spans(&self, segment: u32) -> &[u32] {
        let (first, end) = (self.spans_from[segment as usize], self.spans_from[segment as usize + 1]);
        &self.spans[first.into()..end.into()]
    }

    fn needs(&self, truck: u32, inches: u32) -> Needs {
        let column = usize::from(self.columns[inches as usize]);
        *self.needs[truck as usize * self.lengths + column].get_or_init(|| {
            let mine = self.file.trucks[truck as usize].train.effects(inches.into());
            let most = self.design.effects(inches.into());
            Needs { moment: mine.moment.least_rating(most.moment), shear: mine.shear.least_rating(most.shear) }
        })
    }

    /// Whether the truck may pass the segment.
    pub fn meets(&self, posted: &Posted, truck: u32, segment: u32) -> bool {
        let at = 2 * (posted.changes[segment as usize] + 1);
        let flag = &self.flags[truck as usize * self.file.segments.len() + segment as usize];
        let kept = flag.load(Ordering::Relaxed);
        if kept & !1 == at {
            return kept & 1 == 1;
        }
        let meets = self.first_limit(posted, truck, segment).is_none();
        flag.store(at | u16::from(meets), Ordering::Relaxed);
        meets
    }

    pub fn first_limit(&self, posted: &Posted, truck: u32, segment: u32) -> Option<Limit> {
        let it = &self.file.trucks[truck as usize];
        let [closed, height, width, length, gross, allowance, tridem] = posted.limits[segment as usize];
        if closed == 1 {
            return Some(Limit::Closed);
        }
        let has = [(it.height, height), (it.width, width), (it.length, length), (it.train.gross() as u32, gross)];
        if let Some(at) = has.iter().position(|(has, most)| has > most) {
            return Some(Limit::Posted(at + 1));
        }
        if 1000 * it.worst.weight > u64::from(allowance) * it.worst.limit {
            return Some(Limit::Group);
        }
        if it.tridem.as_ref().is_some_and(|group| group.weight > u64::from(tridem)) {
            return Some(Limit::Tridem);
        }
        self.spans(segment).iter().find_map(|&span| {
            let rating = posted.ratings[span as usize];
            let needs = self.needs(truck, self.file.spans[span as usize].inches);
            if rating < needs.moment {
                Some(Limit::Moment(span))
            } else if rating < needs.shear {
                Some(Limit::Shear(span))
            } else {
                None
            }
        })
    }

    /// Writes a limit of a segment as a reply names it.
    pub fn write_limit(&self, text: &mut Text, posted: &Posted, truck: u32, segment: u32, limit: Limit) {
        let (truck, limits) = (&self.file.trucks[truck as usize], posted.limits[segment as usize]);
        text.pair(" segment ", segment + 1);
        match limit {
            Limit::Closed => {
                text.word(" closed");
            }
            Limit::Posted(at) => {
                let has = [truck.height, truck.width, truck.length, truck.train.gross() as u32][at - 1];
                text.word(" ").word(WHATS[at]).pair(" ", has).pair(" over ", limits[at]);
            }
            Limit::Group => {
                let it = &truck.worst;
                text.pair(" group ", it.first as u64 + 1).pair("-", it.last as u64 + 1).pair(" weight ", it.weight);
                text.pair(" limit ", it.limit).pair(" allowance ", limits[5]);
            }
            Limit::Tridem => {
                let it = truck.tridem.as_ref().expect("a tridem group fails");
                text.pair(" tridem ", it.first as u64 + 1).pair("-", it.last as u64 + 1).pair(" weight ", it.weight);
                text.pair(" over ", limits[TRIDEM]);
            }
            Limit::Moment(span) | Limit::Shear(span) => {
                let inches = self.file.spans[span as usize].inches.into();
                let (mine, most) = (truck.train.effects(inches), self.design.effects(inches));
                text.pair(" span ", span + 1);
                if matches!(limit, Limit::Moment(_)) {
                    text.word(" moment ").frac(mine.moment.lowest()).word(" hs20 ").frac(most.moment.lowest());
                } else {
                    text.word(" shear ").frac(mine.shear.lowest()).word(" hs20 ").frac(most.shear.lowest());
                }
                text.pair(" rating ", posted.ratings[span as usize]);
            }
        }
    }
}
