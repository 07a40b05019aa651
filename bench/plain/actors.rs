//! A day: each actor carries out its commands on a thread of its own, and one at a time is at the office.
use crate::files::{DayFile, Order, Trip};
use crate::finding::{Kept, What};
use crate::limits::{Base, Posted};
use crate::office::{Office, Proposal};
use crate::search::Search;
use crate::text::Text;
use std::io::Write;
use std::sync::{Mutex, MutexGuard};
use std::thread;

/// After so many attempts that are out of date an actor looks for a route while it is at the office.
const MOST_ATTEMPTS: u32 = 8;

/// Writes the journal of a day as it goes. Gives what standard error is told, and whether the whole journal was written.
pub fn run(mut file: DayFile, out: impl Write + Send) -> (Vec<u8>, bool) {
    let mut orders: Vec<Vec<Order>> = (0..file.actor_count()).map(|_| Vec::new()).collect();
    for (caller, order) in std::mem::take(&mut file.orders) {
        orders[caller as usize].push(order);
    }
    let kept = Kept::new(Base::new(file));
    let office = Mutex::new(Office::new(&kept.base, out));
    let carry_out = |(number, orders): (usize, &Vec<Order>)| Actor::new(number as u32, &kept, &office).carry_out(orders);
    if let [orders] = &orders[..] {
        carry_out((0, orders));
    } else {
        thread::scope(|threads| {
            for work in orders.iter().enumerate() {
                threads.spawn(move || carry_out(work));
            }
        });
    }
    office.into_inner().expect("no thread panics").close()
}

struct Actor<'a, 'b, W: Write> {
    number: u32,
    kept: &'a Kept,
    office: &'a Mutex<Office<'b, W>>,
    posted: Posted,
    search: Search,
    /// Room for an application and for what is found for it.
    application: Text,
    found: Text,
}

impl<'a, 'b, W: Write> Actor<'a, 'b, W> {
    fn new(number: u32, kept: &'a Kept, office: &'a Mutex<Office<'b, W>>) -> Actor<'a, 'b, W> {
        let (posted, search) = (Posted::new(&kept.base.file), kept.search());
        Actor { number, kept, office, posted, search, application: Text::default(), found: Text::default() }
    }

    fn carry_out(&mut self, orders: &[Order]) {
        for order in orders {
            match order {
                Order::Apply(trip) => self.apply(trip),
                Order::Post(posting) => self.at_office().post(self.number, *posting),
                Order::SetDay(day) => self.at_office().set_day(self.number, *day),
                Order::Surrender(number) => self.at_office().surrender(self.number, *number),
                Order::Show(number) => self.at_office().show(self.number, *number),
            }
        }
    }

    fn at_office(&self) -> MutexGuard<'a, Office<'b, W>> {
        self.office.lock().expect("no thread panics")
    }

    fn apply(&mut self, trip: &Trip) {
        self.write_application(trip);
        for _ in 0..MOST_ATTEMPTS {
            self.at_office().snapshot(self.number, &mut self.posted);
            let what = self.find(trip);
            let proposal = Proposal { seen: self.posted.version(), what: &what, text: &self.found };
            if self.at_office().submit(self.number, trip, &self.application, &proposal) {
                return;
            }
        }
        let mut office = self.at_office();
        office.bring_up(&mut self.posted);
        let what = self.find(trip);
        let proposal = Proposal { seen: self.posted.version(), what: &what, text: &self.found };
        office.held(self.number, trip, &self.application, &proposal);
    }

    fn write_application(&mut self, trip: &Trip) {
        let text = &mut self.application;
        text.0.clear();
        text.pair("truck ", trip.truck + 1).pair(" from ", trip.from + 1).pair(" to ", trip.to + 1).word(" asked ");
        if trip.asked.is_empty() { text.word("none") } else { text.routes(&trip.asked) };
        text.word(" days ").word(trip.first).word(" ").word(trip.last);
    }

    /// Finds what an application needs, and writes it as a journal says it.
    fn find(&mut self, trip: &Trip) -> What {
        let what = self.kept.find(&mut self.search, &self.posted, trip);
        self.found.0.clear();
        match &what {
            What::Nothing => self.found.word(" none"),
            What::Routes(routes) => self.found.word(" route ").routes(routes),
            What::Fails(segment) => self.found.pair(" fails ", segment + 1),
            What::Cut(cut) => self.found.word(" cut ").word(&cut.list.0),
        };
        what
    }
}
