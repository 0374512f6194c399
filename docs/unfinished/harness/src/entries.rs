//! Entries, boards, plans and parameters as plain data, with the ranges of docs/FIGURES.md.
use std::fmt;

pub const GREATEST_PRICE: u32 = 1_000_000_000;
pub const LAST_TIME: u32 = 863_999_999;
pub const MOST_ORDERS: usize = 65_535;
pub const GREATEST_QUANTITY: u32 = 16_777_215;

#[derive(Clone, Copy, PartialEq, Eq, Debug)]
pub enum Side {
    Buy,
    Sell,
}

impl Side {
    pub const BOTH: [Side; 2] = [Side::Buy, Side::Sell];

    pub fn other(self) -> Side {
        match self {
            Side::Buy => Side::Sell,
            Side::Sell => Side::Buy,
        }
    }

    /// Whether `a` is strictly better than `b`.
    pub fn better(self, a: u32, b: u32) -> bool {
        match self {
            Side::Buy => a > b,
            Side::Sell => a < b,
        }
    }
}

#[derive(Clone, Copy, PartialEq, Eq, Debug)]
pub struct Parameters {
    pub sp: u32,
    pub l: u32,
    pub ur: u32,
    pub lr: u32,
}

impl Parameters {
    pub fn in_range(&self) -> bool {
        is_price(self.sp)
            && self.l <= GREATEST_PRICE
            && self.ur <= GREATEST_PRICE
            && self.lr <= self.ur
    }
}

pub fn is_price(price: u32) -> bool {
    (1..=GREATEST_PRICE).contains(&price)
}

#[derive(Clone, Copy, PartialEq, Eq, Debug)]
pub enum Entry {
    Clock { time: u32 },
    Post { time: u32, side: Side, mode: u8, price: u32 },
    Leave { time: u32, side: Side, price: u32 },
    Trade { time: u32, mode: u8, price: u32, quantity: u32 },
    Parameters { time: u32, set: Parameters },
    Reference { time: u32, session: u8, price: u32 },
    Ruling { time: u32, price: u32 },
}

impl Entry {
    pub fn time(&self) -> u32 {
        match *self {
            Entry::Clock { time }
            | Entry::Post { time, .. }
            | Entry::Leave { time, .. }
            | Entry::Trade { time, .. }
            | Entry::Parameters { time, .. }
            | Entry::Reference { time, .. }
            | Entry::Ruling { time, .. } => time,
        }
    }
}

#[derive(Clone, Copy, PartialEq, Eq, Debug)]
pub enum BoardMake {
    Ladder { count: u32 },
    Grid { start: u32 },
}

impl BoardMake {
    /// The first test of docs/BOARDS.md.
    pub fn first_test(&self) -> Result<(), u8> {
        let good = match *self {
            BoardMake::Ladder { count } => (16..=4_096).contains(&count),
            BoardMake::Grid { start } => (1..=999_999_745).contains(&start),
        };
        if good { Ok(()) } else { Err(1) }
    }

    pub fn has_price(&self, price: u32) -> bool {
        match *self {
            BoardMake::Ladder { .. } => is_price(price),
            BoardMake::Grid { start } => price >= start && price <= start + 255,
        }
    }

    pub fn most_levels(&self) -> usize {
        match *self {
            BoardMake::Ladder { count } => count as usize,
            BoardMake::Grid { .. } => 256,
        }
    }
}

#[derive(Clone, Copy, PartialEq, Eq, Debug)]
pub struct Window {
    pub start: u32,
    pub end: u32,
    pub session: u8,
    /// 0 free, 1 bounded; any other byte makes a job malformed.
    pub bounding: u8,
    pub k: u32,
}

#[derive(Clone, PartialEq, Eq, Debug)]
pub enum PlanMake {
    Fixed { days: u32, group: u32 },
    Announced { windows: Vec<Window> },
}

#[derive(Clone, Copy, PartialEq, Eq, Debug)]
pub enum Slot {
    NoSession,
    Free { session: u8 },
    Bounded { session: u8, k: u32 },
}

const DAY: u32 = 86_400_000;

fn clock_time(hours: u32, minutes: u32) -> u32 {
    (hours * 60 + minutes) * 60_000
}

impl PlanMake {
    /// What making the plan answers: the first refusal, in the order in which the windows come.
    pub fn first_test(&self) -> Result<(), u8> {
        match self {
            PlanMake::Fixed { days, group } => {
                if (1..=10).contains(days) && *group <= 1 { Ok(()) } else { Err(1) }
            }
            PlanMake::Announced { windows } => {
                for i in 0..windows.len() {
                    window_answer(&windows[..i], &windows[i])?;
                }
                Ok(())
            }
        }
    }

    pub fn slot(&self, time: u32) -> Slot {
        match self {
            PlanMake::Fixed { days, group } => fixed_slot(*days, *group, time),
            PlanMake::Announced { windows } => {
                for w in windows {
                    if w.start <= time && time < w.end {
                        return match w.bounding {
                            0 => Slot::Free { session: w.session },
                            _ => Slot::Bounded { session: w.session, k: w.k },
                        };
                    }
                }
                Slot::NoSession
            }
        }
    }
}

/// The answer of adding a window to those held, by docs/PLANS.md.
pub fn window_answer(held: &[Window], new: &Window) -> Result<(), u8> {
    if !(1..=4).contains(&new.session)
        || new.k > 1_000
        || new.start >= new.end
        || new.end > 864_000_000
    {
        return Err(1);
    }
    if held.iter().any(|h| h.start < new.end && new.start < h.end) {
        return Err(12);
    }
    if held.len() >= 32 {
        return Err(13);
    }
    Ok(())
}

fn fixed_slot(days: u32, group: u32, time: u32) -> Slot {
    let (day, within) = (time / DAY, time % DAY);
    let between = |from: u32, to: u32| from <= within && within < to;
    if day + 1 < days {
        if between(clock_time(10, 0), clock_time(23, 50)) {
            return Slot::Bounded { session: 4, k: 30 };
        }
    } else if day + 1 == days {
        if between(clock_time(7, 0), clock_time(10, 0)) {
            return Slot::Bounded { session: 1, k: 100 };
        }
        if between(clock_time(10, 0), clock_time(19, 0)) {
            return match group {
                0 => Slot::Free { session: 2 },
                _ => Slot::Bounded { session: 2, k: 220 },
            };
        }
        if between(clock_time(19, 0), clock_time(23, 50)) {
            return Slot::Bounded { session: 3, k: 100 };
        }
    }
    Slot::NoSession
}

impl fmt::Display for Side {
    fn fmt(&self, f: &mut fmt::Formatter) -> fmt::Result {
        f.write_str(match self {
            Side::Buy => "buy",
            Side::Sell => "sell",
        })
    }
}

/// An entry is shown as its script line, by docs/SCRIPT.md.
impl fmt::Display for Entry {
    fn fmt(&self, f: &mut fmt::Formatter) -> fmt::Result {
        match *self {
            Entry::Clock { time } => write!(f, "clock {time}"),
            Entry::Post { time, side, mode, price } => write!(f, "post {time} {side} {mode} {price}"),
            Entry::Leave { time, side, price } => write!(f, "leave {time} {side} {price}"),
            Entry::Trade { time, mode, price, quantity } => {
                write!(f, "trade {time} {mode} {price} {quantity}")
            }
            Entry::Parameters { time, set } => {
                write!(f, "parameters {time} {} {} {} {}", set.sp, set.l, set.ur, set.lr)
            }
            Entry::Reference { time, session, price } => write!(f, "reference {time} {session} {price}"),
            Entry::Ruling { time, price } => write!(f, "ruling {time} {price}"),
        }
    }
}
