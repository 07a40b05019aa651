//! The office, to which one actor comes at a time: it answers calls and writes the journal.
use crate::files::{Day, Posting, RATING, Trip, WHATS};
use crate::finding::What;
use crate::limits::{Base, Posted};
use crate::text::Text;
use std::io::Write;

#[derive(Clone, Copy, PartialEq)]
enum Mark {
    Live,
    Recalled(u32),
    Surrendered,
}

struct Permit {
    caller: u32,
    truck: u32,
    first: Day,
    last: Day,
    version: u32,
    seen: u32,
    mark: Mark,
}

/// What is submitted: the version at which it was found, and how a journal says it from `route` or `cut` on.
pub struct Proposal<'a> {
    pub seen: u32,
    pub what: &'a What,
    pub text: &'a Text,
}

pub struct Office<'a, W: Write> {
    base: &'a Base,
    posted: Posted,
    /// All postings so far.
    log: Vec<Posting>,
    day: Day,
    permits: Vec<Permit>,
    /// For each segment the live permits one of whose routes holds it.
    using: Vec<Vec<u32>>,
    journal: Text,
    entries: u64,
    notices: Text,
    out: W,
    is_written: bool,
}

/// So many bytes of the journal are written at once.
const BLOCK: usize = 1 << 16;

impl<'a, W: Write> Office<'a, W> {
    pub fn new(base: &'a Base, out: W) -> Office<'a, W> {
        let mut journal = Text::default();
        journal.word("permit-journal 3\n");
        Office {
            base,
            posted: Posted::new(&base.file),
            log: Vec::new(),
            day: base.file.day,
            permits: Vec::new(),
            using: vec![Vec::new(); base.file.segments.len()],
            journal,
            entries: 0,
            notices: Text::default(),
            out,
            is_written: true,
        }
    }

    /// What standard error is told, and whether the whole journal was written.
    pub fn close(mut self) -> (Vec<u8>, bool) {
        self.journal.pair("end ", self.entries).word("\n");
        self.write();
        (self.notices.0, self.is_written)
    }

    fn write(&mut self) {
        self.is_written = self.is_written && self.out.write_all(&self.journal.0).is_ok();
        self.journal.0.clear();
    }

    fn entry(&mut self, caller: u32) -> &mut Text {
        self.entries += 1;
        if self.journal.0.len() > BLOCK {
            self.write();
        }
        self.journal.number(u128::from(caller + 1)).word(" ")
    }

    /// Brings what an actor knows to the version of the office.
    pub fn bring_up(&self, known: &mut Posted) {
        for &posting in &self.log[known.version() as usize..] {
            known.post(&self.base.file, posting);
        }
    }

    pub fn snapshot(&mut self, caller: u32, known: &mut Posted) {
        let version = self.posted.version();
        self.entry(caller).pair("snapshot = at ", version).word("\n");
        self.bring_up(known);
    }

    /// Answers an application for which this was found. Whether the answer stands, and nothing is out of date.
    pub fn submit(&mut self, caller: u32, trip: &Trip, application: &Text, proposal: &Proposal) -> bool {
        let text = self.entry(caller);
        text.word("submit ").word(&application.0).pair(" seen ", proposal.seen).word(&proposal.text.0).word(" = ");
        self.answer(caller, trip, proposal)
    }

    /// The same for what was found while nobody else could post.
    pub fn held(&mut self, caller: u32, trip: &Trip, application: &Text, proposal: &Proposal) {
        self.entry(caller).word("held ").word(&application.0).word(" = ");
        self.answer(caller, trip, proposal);
    }

    fn answer(&mut self, caller: u32, trip: &Trip, proposal: &Proposal) -> bool {
        let is_current = proposal.seen == self.posted.version();
        if trip.first < self.day {
            self.journal.word("late ").word(self.day).word("\n");
            return true;
        }
        let stands = match proposal.what {
            What::Nothing => {
                self.journal.word("notneeded");
                true
            }
            What::Routes(routes) => {
                let stands = is_current || self.meet(trip.truck, routes);
                if stands {
                    self.issue(caller, trip, routes, proposal);
                }
                stands
            }
            What::Fails(segment) => (is_current || self.fail(trip.truck, &[*segment])) && self.refuse(trip.truck, &[*segment]),
            What::Cut(cut) => (is_current || self.fail(trip.truck, &cut.leaving)) && self.refuse(trip.truck, &cut.leaving),
        };
        self.journal.word("\n");
        stands
    }

    /// Whether these routes meet now. Where they do not, says so.
    fn meet(&mut self, truck: u32, routes: &[Vec<u32>]) -> bool {
        let Office { base, posted, journal, .. } = self;
        let Some(&segment) = routes.iter().flatten().find(|segment| !base.meets(posted, truck, **segment)) else {
            return true;
        };
        let limit = base.first_limit(posted, truck, segment).expect("the segment fails");
        journal.pair("outdated ", posted.version()).word(" fails");
        base.write_limit(journal, posted, truck, segment, limit);
        false
    }

    /// Whether these segments fail now. Where one does not, says so.
    fn fail(&mut self, truck: u32, segments: &[u32]) -> bool {
        let Office { base, posted, journal, .. } = self;
        let open = segments.iter().find(|segment| base.meets(posted, truck, **segment));
        if let Some(segment) = open {
            journal.pair("outdated ", posted.version()).pair(" meets segment ", segment + 1);
        }
        open.is_none()
    }

    /// Refuses for the first of these segments.
    fn refuse(&mut self, truck: u32, segments: &[u32]) -> bool {
        let Office { base, posted, journal, .. } = self;
        if let Some(&segment) = segments.first() {
            let limit = base.first_limit(posted, truck, segment).expect("what is in the way fails");
            journal.pair("refused ", posted.version());
            base.write_limit(journal, posted, truck, segment, limit);
        } else {
            journal.word("noroad");
        }
        true
    }

    fn issue(&mut self, caller: u32, trip: &Trip, routes: &[Vec<u32>], proposal: &Proposal) {
        let (number, version) = (self.permits.len() as u32, self.posted.version());
        self.journal.pair("issued ", number + 1).pair(" at ", version).word(&proposal.text.0);
        for &segment in routes.iter().flatten() {
            let using = &mut self.using[segment as usize];
            if using.last() != Some(&number) {
                using.push(number);
            }
        }
        let Trip { truck, first, last, .. } = *trip;
        self.permits.push(Permit { caller, truck, first, last, version, seen: proposal.seen, mark: Mark::Live });
    }

    pub fn post(&mut self, caller: u32, posting: Posting) {
        let Posting { item, what, value } = posting;
        let kind = if what == RATING { "post span " } else { "post segment " };
        self.entry(caller).pair(kind, item + 1).word(" ").word(WHATS[what]).pair(" ", value);
        let segment = self.posted.post(&self.base.file, posting);
        self.log.push(posting);
        let (version, gone) = (self.posted.version(), self.recalled_on(segment));
        for &number in &gone {
            self.permits[number as usize].mark = Mark::Recalled(version);
            self.notices.pair("recall ", number + 1).pair(" ", version).word("\n");
        }
        self.journal.pair(" = posted ", version).word(" recalled ").list(&gone, 1).word("\n");
    }

    /// The permits in force on this segment whose truck may not pass it any more. Those that ended are dropped from the list.
    fn recalled_on(&mut self, segment: u32) -> Vec<u32> {
        let Office { base, posted, permits, using, day, .. } = self;
        let using = &mut using[segment as usize];
        using.retain(|number| {
            let permit = &permits[*number as usize];
            permit.mark == Mark::Live && permit.last >= *day
        });
        using.iter().copied().filter(|number| !base.meets(posted, permits[*number as usize].truck, segment)).collect()
    }

    pub fn set_day(&mut self, caller: u32, day: Day) {
        let today = self.day;
        let reply = if day < today { " = dayback " } else { " = day " };
        self.day = today.max(day);
        let now = self.day;
        self.entry(caller).word("day ").word(day).word(reply).word(now).word("\n");
    }

    fn permit(&self, number: u32) -> Option<&Permit> {
        (number as usize).checked_sub(1).and_then(|at| self.permits.get(at))
    }

    pub fn surrender(&mut self, caller: u32, number: u32) {
        self.entry(caller).pair("surrender ", number).word(" = ");
        match self.permit(number) {
            None => {
                self.journal.word("unknown");
            }
            Some(permit) if permit.caller != caller => {
                self.journal.word("notyours");
            }
            Some(&Permit { mark, last, .. }) if mark != Mark::Live || last < self.day => {
                self.journal.word("notinforce ");
                self.status(mark, last);
            }
            Some(_) => {
                self.journal.word("surrendered");
                self.permits[number as usize - 1].mark = Mark::Surrendered;
            }
        }
        self.journal.word("\n");
    }

    pub fn show(&mut self, caller: u32, number: u32) {
        self.entry(caller).pair("show ", number).word(" = ");
        if let Some(&Permit { caller, truck, first, last, version, seen, mark }) = self.permit(number) {
            let text = self.journal.pair("shown ", number).pair(" caller ", caller + 1).pair(" truck ", truck + 1);
            text.word(" days ").word(first).word(" ").word(last).pair(" at ", version).pair(" seen ", seen).word(" ");
            self.status(mark, last);
        } else {
            self.journal.word("unknown");
        }
        self.journal.word("\n");
    }

    fn status(&mut self, mark: Mark, last: Day) {
        match mark {
            Mark::Recalled(version) => self.journal.pair("recalled ", version),
            Mark::Surrendered => self.journal.word("surrendered"),
            Mark::Live if last < self.day => self.journal.word("expired"),
            Mark::Live => self.journal.word("inforce"),
        };
    }
}
