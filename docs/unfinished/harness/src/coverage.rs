//! How often random jobs come to each edge, counted by the reference engine.
use crate::entries::{BoardMake, Entry, Side, Slot};
use crate::job::Job;
use crate::reference::{Closed, Day};
use std::collections::BTreeMap;
use std::fmt;

#[derive(Default)]
pub struct Coverage {
    pub entries: u64,
    counts: BTreeMap<&'static str, u64>,
}

const REFUSED: [&str; 10] = [
    "answer 0",
    "answer 1",
    "answer 2",
    "answer 3",
    "answer 4",
    "answer 5",
    "answer 6",
    "answer 7",
    "answer 8",
    "answer 9",
];

impl Coverage {
    fn count(&mut self, what: &'static str, holds: bool) {
        *self.counts.entry(what).or_default() += u64::from(holds);
    }

    /// Counts what the entries of a job come to. A job that is misused counts nothing.
    pub fn add_job(&mut self, job: &Job) {
        if job.board.first_test().is_err() || job.plan.first_test().is_err() {
            return;
        }
        let mut closed = Closed::NEWLY_LISTED;
        for made in &job.days {
            let Ok(mut day) = Day::open(closed, job.board, &job.plan, made.time, made.given) else {
                self.count("days refused", true);
                continue;
            };
            self.count("days with tightened bounds", day.days_left() != (0, 0));
            for feed in &made.feeds {
                for entry in feed.body.entries() {
                    self.add_entry(job, &mut day, &entry);
                }
            }
            self.count("days marked upward", day.marks().0);
            self.count("days marked downward", day.marks().1);
            closed = day.close();
        }
    }

    fn add_entry(&mut self, job: &Job, day: &mut Day, entry: &Entry) {
        let time = entry.time();
        let limits = day.limits(true, time).ok();
        let ripe = limits.and_then(|_| day.ripe(time));
        let forerunners = Side::BOTH.map(|side| day.forerunner(side));
        self.count_ripeness(day, time, limits.is_some());
        let before = day.quotation();
        let (answer, quotation) = day.send(entry);
        self.entries += 1;
        self.count(REFUSED[usize::from(answer)], true);
        if answer == 0 {
            let moved = quotation != before;
            self.count("quotation moved to a ripe level", moved && ripe == Some(quotation));
            self.count("quotation moved by a trade or ruling", moved && ripe != Some(quotation));
            let now = Side::BOTH.map(|side| day.forerunner(side));
            self.count("forerunner set", now != forerunners);
        }
        if let Some((lower, upper)) = limits {
            self.count("lower limit above the upper one", lower > upper);
            self.count_limits(entry, answer, lower, upper);
        }
        self.count_slot(job, time);
        self.count_board(job, day);
    }

    fn count_ripeness(&mut self, day: &Day, time: u32, on_time: bool) {
        for side in Side::BOTH {
            let Some(price) = day.best(side) else {
                continue;
            };
            if on_time && side.better(price, day.quotation()) {
                let (age, required) = (time - day.since(side, price), day.required(side, price));
                self.count("best level with a credit", required < 5_000);
                self.count("best level of exactly the required age", age == required);
                self.count("best level one millisecond younger", age + 1 == required);
                self.count("best level one millisecond older", age == required + 1);
            }
        }
    }

    fn count_limits(&mut self, entry: &Entry, answer: u8, lower: u64, upper: u64) {
        let (price, high, low) = match *entry {
            Entry::Post { side, mode: 0, price, .. } => (price, side == Side::Buy, side == Side::Sell),
            Entry::Trade { mode: 0 | 1, price, .. } => (price, true, true),
            _ => return,
        };
        let price = u64::from(price);
        self.count("accepted at a dynamic limit", answer == 0 && (high && price == upper || low && price == lower));
        self.count("refused one beyond a dynamic limit", answer == 5 && (high && price == upper + 1 || low && price + 1 == lower));
    }

    fn count_slot(&mut self, job: &Job, time: u32) {
        let edge = time > 0 && job.plan.slot(time) != job.plan.slot(time - 1);
        self.count("at the first millisecond of a window", edge);
        self.count("at the last millisecond of a window", job.plan.slot(time) != job.plan.slot(time.saturating_add(1)));
        self.count("in a bounded main session", matches!(job.plan.slot(time), Slot::Bounded { session: 2, .. }));
    }

    fn count_board(&mut self, job: &Job, day: &Day) {
        if let BoardMake::Ladder { count } = job.board {
            let full = Side::BOTH.iter().any(|side| day.levels(*side).len() == count as usize);
            self.count("with a full side of a ladder", full);
        }
    }
}

impl fmt::Display for Coverage {
    fn fmt(&self, f: &mut fmt::Formatter) -> fmt::Result {
        writeln!(f, "of {} entries:", self.entries)?;
        for (what, count) in &self.counts {
            writeln!(f, "  {count:>9} {what}")?;
        }
        Ok(())
    }
}
