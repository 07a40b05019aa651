//! Check files and day files, or the first record that is refused and why.
use crate::records::{Field, Records};
use crate::truck::{Train, Truck};
use std::collections::HashMap;
use std::hash::{BuildHasherDefault, Hasher};

pub const WHATS: [&str; 8] = ["closed", "height", "width", "length", "gross", "allowance", "tridem", "rating"];
pub const TRIDEM: usize = 6;
pub const RATING: usize = 7;
const RANGES: [(u32, u32); 8] =
    [(0, 1), (1, 999), (1, 999), (1, 9999), (1, 2_000_000), (0, 100_000), (1, 600_000), (0, 100_000)];
const MOST_BYTES: usize = 4_194_304;
const MOST_ROUTES: usize = 8;
const MOST_ANNUAL_DAYS: u32 = 365;

/// The status and what is said behind `refused: `.
pub struct Refusal(pub u8, pub String);

enum Cause {
    Bad(String),
    Many(&'static str),
}

type Or<T> = Result<T, Cause>;

fn bad<T>(cause: impl Into<String>) -> Or<T> {
    Err(Cause::Bad(cause.into()))
}

fn demand(holds: bool, cause: &str) -> Or<()> {
    if holds { Ok(()) } else { bad(cause) }
}

fn name<'a>(record: &'a [Field], at: usize) -> Or<&'a [u8]> {
    let text: &[u8] = &record[at - 1];
    if is_name(text) { Ok(text) } else { bad(format!("field {at}")) }
}

fn is_name(text: &[u8]) -> bool {
    (1..=16).contains(&text.len()) && text.iter().all(|b| b.is_ascii_alphanumeric() || matches!(b, b'-' | b'_'))
}

fn digits(text: &[u8]) -> Option<u32> {
    let fits = (1..=9).contains(&text.len()) && text.iter().all(u8::is_ascii_digit);
    fits.then(|| text.iter().fold(0, |sum, b| 10 * sum + u32::from(b - b'0')))
}

fn number(record: &[Field], at: usize) -> Or<u32> {
    digits(&record[at - 1]).map_or_else(|| bad(format!("field {at}")), Ok)
}

fn axles(record: &[Field], at: usize) -> Or<Vec<(u64, u64)>> {
    let pair = |text: &[u8]| {
        let colon = text.iter().position(|b| *b == b':')?;
        Some((u64::from(digits(&text[..colon])?), u64::from(digits(&text[colon + 1..])?)))
    };
    let read: Option<Vec<_>> = record[at - 1].split(|b| *b == b' ').map(pair).collect();
    read.map_or_else(|| bad(format!("field {at}")), Ok)
}

/// The routes that are asked for, none or one to eight, each the names of its segments.
fn routes<'a>(record: &'a [Field], at: usize) -> Or<Vec<Vec<&'a [u8]>>> {
    let text: &[u8] = &record[at - 1];
    if text.is_empty() {
        return Ok(Vec::new());
    }
    let split: Vec<Vec<&[u8]>> = text.split(|b| *b == b'|').map(|route| route.split(|b| *b == b' ').collect()).collect();
    let has_form = split.len() <= MOST_ROUTES && split.iter().flatten().all(|name| is_name(name));
    if has_form { Ok(split) } else { bad(format!("field {at}")) }
}

/// One of the limits of a segment or of a span: the first so many of all.
fn what(record: &[Field], at: usize, most: usize) -> Or<usize> {
    let found = WHATS[..most].iter().position(|word| word.as_bytes() == &*record[at - 1]);
    found.map_or_else(|| bad(format!("field {at}")), Ok)
}

pub type Day = [u8; 10];

fn day(record: &[Field], at: usize) -> Or<Day> {
    let shape = |d: &Day| d.iter().enumerate().all(|(i, b)| if matches!(i, 4 | 7) { *b == b'-' } else { b.is_ascii_digit() });
    match Day::try_from(&*record[at - 1]) {
        Ok(day) if shape(&day) => Ok(day),
        _ => bad(format!("field {at}")),
    }
}

fn is_day(day: &Day) -> bool {
    let read = |text: &[u8]| digits(text).unwrap_or(0);
    let (year, month, date) = (read(&day[..4]), read(&day[5..7]), read(&day[8..]));
    let leap = year % 4 == 0 && (year % 100 != 0 || year % 400 == 0);
    let last = match month {
        2 => 28 + u32::from(leap),
        4 | 6 | 9 | 11 => 30,
        1..=12 => 31,
        _ => 0,
    };
    year >= 1 && (1..=last).contains(&date)
}

/// How many days of the calendar come before this one.
fn day_number(day: &Day) -> u32 {
    let read = |text: &[u8]| digits(text).unwrap_or(0);
    let (year, month, date) = (read(&day[..4]), read(&day[5..7]), read(&day[8..]));
    // a year that begins in March has its leap day at its end
    let (years, months) = if month < 3 { (year - 1, month + 9) } else { (year, month - 3) };
    365 * years + years / 4 - years / 100 + years / 400 + (153 * months + 2) / 5 + date
}

fn range(value: u32, (least, most): (u32, u32), at: usize) -> Or<()> {
    if least <= value && value <= most { Ok(()) } else { bad(format!("range {at}")) }
}

fn room(count: usize, most: usize, kind: &'static str) -> Or<()> {
    if count < most { Ok(()) } else { Err(Cause::Many(kind)) }
}

/// The names of a kind, with their numbers. A name has at most 16 bytes, none of them zero, so it is kept as one number.
#[derive(Default)]
pub struct Names(HashMap<u128, u32, BuildHasherDefault<NameHasher>>);

/// One product of both halves of a name: quicker than the usual hash, which is made for names of an enemy.
#[derive(Default)]
struct NameHasher(u64);

impl Hasher for NameHasher {
    fn finish(&self) -> u64 {
        self.0
    }

    fn write(&mut self, _: &[u8]) {
        unreachable!("names are numbers")
    }

    fn write_u128(&mut self, name: u128) {
        let (low, high) = (name as u64 ^ 0x9e37_79b9_7f4a_7c15, (name >> 64) as u64 ^ 0xd1b5_4a32_d192_ed03);
        let product = u128::from(low) * u128::from(high);
        self.0 = product as u64 ^ (product >> 64) as u64;
    }
}

impl Names {
    fn key(name: &[u8]) -> u128 {
        let mut bytes = [0; 16];
        bytes[..name.len()].copy_from_slice(name);
        u128::from_le_bytes(bytes)
    }

    fn known(&self, name: &[u8], at: usize) -> Or<u32> {
        self.0.get(&Names::key(name)).map_or_else(|| bad(format!("unknown {at}")), |number| Ok(*number))
    }

    fn is_new(&self, name: &[u8]) -> Or<()> {
        demand(!self.0.contains_key(&Names::key(name)), "same")
    }

    fn add(&mut self, name: &[u8]) {
        self.0.insert(Names::key(name), self.0.len() as u32);
    }
}

fn truck(record: &[Field], names: Option<&Names>) -> Or<Truck> {
    let it = name(record, 2)?;
    name(record, 3)?;
    let (height, width, length) = (number(record, 4)?, number(record, 5)?, number(record, 6)?);
    let axles = axles(record, 7)?;
    names.map_or(Ok(()), |names| names.is_new(it))?;
    range(height, (1, 999), 4)?;
    range(width, (1, 999), 5)?;
    range(length, (1, 9999), 6)?;
    let gross: u64 = axles.iter().map(|a| a.1).sum();
    demand(axles.len() >= 2, "train 1")?;
    demand(axles.len() <= 32, "train 2")?;
    demand(axles[0].0 == 0 && axles.windows(2).all(|two| two[0].0 < two[1].0), "train 3")?;
    demand(axles.iter().all(|a| (1..=200_000).contains(&a.1)), "train 4")?;
    demand(gross <= 2_000_000, "train 5")?;
    demand(axles[axles.len() - 1].0 <= 3000, "train 6")?;
    let train = Train::new(axles);
    let (worst, tridem) = (train.worst(), train.heaviest_tridem());
    Ok(Truck { name: it.to_vec(), height, width, length, train, worst, tridem })
}

/// Takes the records one after another, up to the end or to the first that is refused.
fn read_all(data: &[u8], kinds: &[(&str, usize)], mut take: impl FnMut(&str, &[Field]) -> Or<()>) -> Result<(), Refusal> {
    if data.len() > MOST_BYTES {
        return Err(Refusal(6, "bytes".into()));
    }
    let (mut records, mut record) = (Records::new(data), Vec::new());
    let (mut row, mut ended, is_ascii) = (0, false, data.is_ascii());
    while records.read(&mut record) {
        row += 1;
        let mut judge = || {
            let is_text = is_ascii || record.iter().all(|field| std::str::from_utf8(field).is_ok());
            demand(record.len() == 8 && is_text, "fields")?;
            let Some(&(kind, used)) = kinds.iter().find(|kind| kind.0.as_bytes() == &*record[0]) else {
                return bad("kind");
            };
            demand((kind == kinds[0].0) == (row == 1) && !ended, "order")?;
            demand(record[used..].iter().all(|field| field.is_empty()), "extra")?;
            ended = kind == "end";
            if ended { Ok(()) } else { take(kind, &record) }
        };
        judge().map_err(|cause| match cause {
            Cause::Bad(cause) => Refusal(5, format!("record {row} {cause}")),
            Cause::Many(kind) => Refusal(6, format!("record {row} {kind}")),
        })?;
    }
    if ended { Ok(()) } else { Err(Refusal(5, format!("record {} end", row + 1))) }
}

pub struct CheckFile {
    pub truck: Truck,
    pub probes: Vec<(u32, u32)>,
}

pub fn read_check(data: &[u8]) -> Result<CheckFile, Refusal> {
    let (mut it, mut probes) = (None, Vec::new());
    read_all(data, &[("truck", 7), ("probe", 3), ("end", 1)], |kind, record| {
        if kind == "truck" {
            it = Some(truck(record, None)?);
            return Ok(());
        }
        let (inches, rating) = (number(record, 2)?, number(record, 3)?);
        range(inches, (1, 6000), 2)?;
        range(rating, RANGES[RATING], 3)?;
        room(probes.len(), 64, "probes")?;
        probes.push((inches, rating));
        Ok(())
    })?;
    Ok(CheckFile { truck: it.expect("record 1 is a truck"), probes })
}

pub struct Segment {
    pub from: u32,
    pub to: u32,
    pub feet: u32,
    /// The limits, in the order of `WHATS`.
    pub limits: [u32; 7],
    pub spans: Vec<u32>,
}

pub struct Span {
    pub segment: u32,
    pub inches: u32,
    pub rating: u32,
}

pub struct Trip {
    pub truck: u32,
    pub from: u32,
    pub to: u32,
    pub asked: Vec<Vec<u32>>,
    pub first: Day,
    pub last: Day,
}

/// A new value for one of the limits of a segment, or for the rating of a span.
#[derive(Clone, Copy)]
pub struct Posting {
    pub item: u32,
    pub what: usize,
    pub value: u32,
}

pub enum Order {
    Apply(Trip),
    Post(Posting),
    SetDay(Day),
    Surrender(u32),
    Show(u32),
}

#[derive(Default)]
pub struct DayFile {
    pub day: Day,
    pub nodes: Names,
    segment_names: Names,
    span_names: Names,
    truck_names: Names,
    actors: Names,
    pub segments: Vec<Segment>,
    pub spans: Vec<Span>,
    pub trucks: Vec<Truck>,
    pub orders: Vec<(u32, Order)>,
}

const DAY_KINDS: [(&str, usize); 13] = [
    ("day", 2), ("node", 2), ("segment", 5), ("limit", 4), ("span", 5), ("truck", 7), ("actor", 2), ("apply", 8), ("post", 5),
    ("setday", 3), ("surrender", 3), ("show", 3), ("end", 1),
];

pub fn read_day(data: &[u8]) -> Result<DayFile, Refusal> {
    let mut file = DayFile::default();
    read_all(data, &DAY_KINDS, |kind, record| file.take(kind, record))?;
    Ok(file)
}

impl DayFile {
    pub fn node_count(&self) -> usize {
        self.nodes.0.len()
    }

    pub fn actor_count(&self) -> usize {
        self.actors.0.len()
    }

    fn take(&mut self, kind: &str, record: &[Field]) -> Or<()> {
        match kind {
            "day" => {
                self.day = day(record, 2)?;
                demand(is_day(&self.day), "range 2")
            }
            "node" => {
                let it = name(record, 2)?;
                self.nodes.is_new(it)?;
                room(self.node_count(), 4096, "nodes")?;
                self.nodes.add(it);
                Ok(())
            }
            "segment" => self.segment(record),
            "limit" => self.limit(record),
            "span" => self.span(record),
            "truck" => {
                let it = truck(record, Some(&self.truck_names))?;
                room(self.trucks.len(), 64, "trucks")?;
                self.truck_names.add(&it.name);
                self.trucks.push(it);
                Ok(())
            }
            "actor" => {
                let it = name(record, 2)?;
                self.actors.is_new(it)?;
                room(self.actors.0.len(), 16, "actors")?;
                self.actors.add(it);
                Ok(())
            }
            _ => {
                let order = self.order(kind, record)?;
                room(self.orders.len(), 4096, "commands")?;
                self.orders.push(order);
                Ok(())
            }
        }
    }

    fn segment(&mut self, record: &[Field]) -> Or<()> {
        let (it, from, to, feet) = (name(record, 2)?, name(record, 3)?, name(record, 4)?, number(record, 5)?);
        self.segment_names.is_new(it)?;
        let (from, to) = (self.nodes.known(from, 3)?, self.nodes.known(to, 4)?);
        range(feet, (1, 10_000_000), 5)?;
        room(self.segments.len(), 16384, "segments")?;
        self.segment_names.add(it);
        self.segments.push(Segment { from, to, feet, limits: [0, 999, 999, 9999, 2_000_000, 100_000, 600_000], spans: Vec::new() });
        Ok(())
    }

    fn limit(&mut self, record: &[Field]) -> Or<()> {
        let (on, what, value) = (name(record, 2)?, what(record, 3, RATING)?, number(record, 4)?);
        let on = self.segment_names.known(on, 2)?;
        range(value, RANGES[what], 4)?;
        self.segments[on as usize].limits[what] = value;
        Ok(())
    }

    fn span(&mut self, record: &[Field]) -> Or<()> {
        let (it, on, inches, rating) = (name(record, 2)?, name(record, 3)?, number(record, 4)?, number(record, 5)?);
        self.span_names.is_new(it)?;
        let segment = self.segment_names.known(on, 3)?;
        range(inches, (1, 6000), 4)?;
        range(rating, RANGES[RATING], 5)?;
        room(self.spans.len(), 2048, "spans")?;
        let on = &mut self.segments[segment as usize].spans;
        room(on.len(), 16, "spans-of-segment")?;
        on.push(self.spans.len() as u32);
        self.span_names.add(it);
        self.spans.push(Span { segment, inches, rating });
        Ok(())
    }

    fn order(&self, kind: &str, record: &[Field]) -> Or<(u32, Order)> {
        let actor = name(record, 2)?;
        if kind == "apply" {
            return self.apply(actor, record);
        }
        if kind == "post" {
            let (item, what, value) = (name(record, 3)?, what(record, 4, WHATS.len())?, number(record, 5)?);
            let actor = self.actors.known(actor, 2)?;
            let item = if what == RATING { &self.span_names } else { &self.segment_names }.known(item, 3)?;
            range(value, RANGES[what], 5)?;
            return Ok((actor, Order::Post(Posting { item, what, value })));
        }
        if kind == "setday" {
            let to = day(record, 3)?;
            let actor = self.actors.known(actor, 2)?;
            demand(is_day(&to), "range 3")?;
            return Ok((actor, Order::SetDay(to)));
        }
        let permit = number(record, 3)?;
        let actor = self.actors.known(actor, 2)?;
        Ok((actor, if kind == "show" { Order::Show(permit) } else { Order::Surrender(permit) }))
    }

    fn apply(&self, actor: &[u8], record: &[Field]) -> Or<(u32, Order)> {
        let (truck, from, to) = (name(record, 3)?, name(record, 4)?, name(record, 5)?);
        let asked = routes(record, 6)?;
        let (first, last) = (day(record, 7)?, day(record, 8)?);
        let actor = self.actors.known(actor, 2)?;
        let truck = self.truck_names.known(truck, 3)?;
        let (from, to) = (self.nodes.known(from, 4)?, self.nodes.known(to, 5)?);
        let known = |route: &Vec<&[u8]>| route.iter().map(|name| self.segment_names.known(name, 6)).collect();
        let asked = asked.iter().map(known).collect::<Or<Vec<Vec<u32>>>>()?;
        demand(is_day(&first), "range 7")?;
        demand(is_day(&last), "range 8")?;
        demand(from != to, "same-place")?;
        demand(asked.iter().all(|route| self.is_walk(route, from, to)), "broken-route")?;
        demand(first <= last, "day-order")?;
        let is_annual = asked.len() > 1;
        demand(!is_annual || day_number(&last) - day_number(&first) <= MOST_ANNUAL_DAYS, "annual-days")?;
        Ok((actor, Order::Apply(Trip { truck, from, to, asked, first, last })))
    }

    fn is_walk(&self, route: &[u32], from: u32, to: u32) -> bool {
        let step = |at: u32, number: &u32| {
            let segment = &self.segments[*number as usize];
            (segment.from == at).then_some(segment.to)
        };
        route.iter().try_fold(from, step) == Some(to)
    }
}
