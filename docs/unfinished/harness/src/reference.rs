//! An engine written from docs/ alone: it keeps the accepted entries and works everything out of them by scanning.
use crate::entries::{is_price, BoardMake, Entry, Parameters, PlanMake, Side, Slot};
use crate::entries::{GREATEST_QUANTITY, LAST_TIME, MOST_ORDERS};
use crate::exact::Exact;

/// What goes from one trading day to the next.
#[derive(Clone, Copy, PartialEq, Eq, Debug)]
pub struct Closed {
    pub quotation: Option<u32>,
    pub up_left: u8,
    pub down_left: u8,
}

impl Closed {
    pub const NEWLY_LISTED: Closed = Closed { quotation: None, up_left: 0, down_left: 0 };
}

#[derive(Clone, Copy, PartialEq, Eq, Debug)]
pub struct Forerunner {
    pub price: u32,
    pub since: u32,
    pub life: u32,
}

#[derive(Clone, Copy, PartialEq, Eq, Debug)]
pub struct Level {
    pub price: u32,
    pub orders: usize,
    pub since: u32,
}

/// An accepted entry, with the quotation after it.
#[derive(Clone, Copy, Debug)]
struct Past {
    entry: Entry,
    quotation: u32,
}

/// The two exact limits of a kind, lower and upper.
#[derive(Clone, Copy, Debug)]
pub struct Limits {
    lower: Exact,
    upper: Exact,
}

impl Limits {
    /// The limits as the limits call tells them: rounded inward, the lower one cut at 0.
    pub fn rounded(&self) -> (u64, u64) {
        (self.lower.ceil().max(0) as u64, self.upper.floor() as u64)
    }
}

/// An open day: what open was given, and every entry accepted since.
pub struct Day<'a> {
    board: BoardMake,
    plan: &'a PlanMake,
    opened: u32,
    given: Parameters,
    from: Closed,
    history: Vec<Past>,
}

const RIPENING: u32 = 5_000;

impl<'a> Day<'a> {
    /// Opens a day on an empty board, so that refusal 11 cannot come.
    pub fn open(
        from: Closed,
        board: BoardMake,
        plan: &'a PlanMake,
        time: u32,
        given: Parameters,
    ) -> Result<Day<'a>, u8> {
        if !given.in_range() {
            return Err(1);
        }
        if time > LAST_TIME {
            return Err(2);
        }
        Ok(Day { board, plan, opened: time, given, from, history: Vec::new() })
    }

    pub fn close(&self) -> Closed {
        let (up, down) = self.marks();
        let left = |marked: bool, had: u8| if marked { 2 } else { had.saturating_sub(1) };
        Closed {
            quotation: Some(self.quotation()),
            up_left: left(up, self.from.up_left),
            down_left: left(down, self.from.down_left),
        }
    }

    // What the history says of the day.

    pub fn time(&self) -> u32 {
        self.history.last().map_or(self.opened, |past| past.entry.time())
    }

    pub fn quotation(&self) -> u32 {
        match self.history.last() {
            Some(past) => past.quotation,
            None => self.from.quotation.unwrap_or(self.given.sp),
        }
    }

    pub fn parameters(&self) -> Parameters {
        parameters(&self.history).unwrap_or(self.given)
    }

    pub fn reference(&self, session: u8) -> Option<u32> {
        reference(&self.history, session)
    }

    fn lp(&self, session: u8) -> u32 {
        self.reference(session).unwrap_or(self.parameters().sp)
    }

    pub fn days_left(&self) -> (u8, u8) {
        (self.from.up_left, self.from.down_left)
    }

    /// Whether some accepted trade marks the day upward, and downward.
    pub fn marks(&self) -> (bool, bool) {
        let (mut up, mut down) = (false, false);
        for (place, past) in self.history.iter().enumerate() {
            let Entry::Trade { time, mode: 0, price, .. } = past.entry else {
                continue;
            };
            let Slot::Bounded { session: 2, .. } = self.plan.slot(time) else {
                continue;
            };
            let before = &self.history[..place];
            let sp = parameters(before).unwrap_or(self.given).sp;
            let lp = i128::from(reference(before, 2).unwrap_or(sp));
            let distance = 100 * (i128::from(price) - lp);
            up |= distance > 18 * lp;
            down |= distance < -18 * lp;
        }
        (up, down)
    }

    /// The standing levels of a side, best first.
    pub fn levels(&self, side: Side) -> Vec<Level> {
        let mut levels: Vec<Level> = standing(&self.history, side)
            .into_iter()
            .map(|(price, orders)| Level { price, orders, since: since(&self.history, side, price) })
            .collect();
        if side == Side::Buy {
            levels.reverse();
        }
        levels
    }

    pub fn best(&self, side: Side) -> Option<u32> {
        best(&self.history, side)
    }

    pub fn since(&self, side: Side, price: u32) -> u32 {
        since(&self.history, side, price)
    }

    pub fn forerunner(&self, side: Side) -> Option<Forerunner> {
        forerunner(&self.history, side)
    }

    /// The time for which the level of a side must stand to be ripe.
    pub fn required(&self, side: Side, price: u32) -> u32 {
        let stands_since = self.since(side, price);
        match self.forerunner(side) {
            Some(f)
                if side.better(f.price, price) && f.since < stands_since && f.life < RIPENING =>
            {
                RIPENING - f.life
            }
            _ => RIPENING,
        }
    }

    /// The price of the ripe level at a time that is not before the day's.
    pub fn ripe(&self, time: u32) -> Option<u32> {
        let mut found = None;
        for side in Side::BOTH {
            let Some(price) = self.best(side) else {
                continue;
            };
            if side.better(price, self.quotation())
                && time - self.since(side, price) >= self.required(side, price)
            {
                assert!(found.is_none(), "two ripe levels");
                found = Some(price);
            }
        }
        found
    }

    // Limits.

    pub fn static_limits(&self) -> Limits {
        let Parameters { sp, l, .. } = self.parameters();
        let (sp, l) = (i128::from(sp), i128::from(l));
        Limits {
            lower: Exact::part(sp - 2 * l, 1).smaller(Exact::part(sp, 5)),
            upper: Exact::part(sp + 2 * l, 1).larger(Exact::part(5 * sp, 1)),
        }
    }

    pub fn dynamic_limits(&self, time: u32) -> Limits {
        let Parameters { sp, ur, lr, .. } = self.parameters();
        let quotation = Exact::whole(self.ripe(time).unwrap_or(self.quotation()));
        let radius = Exact::part(15 * i128::from(sp), 100)
            .smaller(Exact::part(i128::from(ur) - i128::from(lr), 10));
        let mut limits = Limits {
            lower: quotation.minus(radius),
            upper: quotation.plus(radius),
        };
        if let Slot::Bounded { session, k } = self.plan.slot(time) {
            let tight = |left: u8| if session == 2 && left > 0 { k.min(100) } else { k };
            let lp = Exact::whole(self.lp(session));
            let share = |k: u32| lp.times(Exact::part(k.into(), 1_000));
            let upper_bound = lp.plus(share(tight(self.from.up_left)));
            let lower_bound = lp.minus(share(tight(self.from.down_left)));
            limits.upper = limits.upper.smaller(upper_bound);
            limits.lower = limits.lower.larger(lower_bound);
        }
        limits
    }

    /// The limits call: static and dynamic at a time, or 2.
    pub fn limits(&self, dynamic: bool, time: u32) -> Result<(u64, u64), u8> {
        self.check_time(time)?;
        if dynamic {
            Ok(self.dynamic_limits(time).rounded())
        } else {
            Ok(self.static_limits().rounded())
        }
    }

    // Checks 1 to 9, in their order.

    fn check_time(&self, time: u32) -> Result<(), u8> {
        refuse(2, time < self.time() || time > LAST_TIME)
    }

    fn check_session(&self, time: u32) -> Result<(), u8> {
        refuse(3, self.plan.slot(time) == Slot::NoSession)
    }

    fn check_static(&self, price: u32) -> Result<(), u8> {
        let (limits, price) = (self.static_limits(), Exact::whole(price));
        refuse(4, price.below(limits.lower) || limits.upper.below(price))
    }

    fn check_post(&self, side: Side, mode: u8, price: u32, time: u32) -> Result<(), u8> {
        refuse(1, (mode != 0 && mode != 2) || !is_price(price))?;
        self.check_time(time)?;
        self.check_session(time)?;
        self.check_static(price)?;
        if mode == 2 {
            return Ok(());
        }
        let limits = self.dynamic_limits(time);
        let exact = Exact::whole(price);
        let outside = match side {
            Side::Buy => limits.upper.below(exact),
            Side::Sell => exact.below(limits.lower),
        };
        refuse(5, outside)?;
        let crossing = match (side, self.best(side.other())) {
            (_, None) => false,
            (Side::Buy, Some(sell)) => price >= sell,
            (Side::Sell, Some(buy)) => price <= buy,
        };
        refuse(6, crossing)?;
        let orders = orders(&self.history, side, price);
        refuse(7, orders == MOST_ORDERS)?;
        let full = || standing(&self.history, side).len() >= self.board.most_levels();
        refuse(8, orders == 0 && (!self.board.has_price(price) || full()))
    }

    fn check_trade(&self, mode: u8, price: u32, quantity: u32, time: u32) -> Result<(), u8> {
        let quantity_is_good = (1..=GREATEST_QUANTITY).contains(&quantity);
        refuse(1, mode > 2 || !is_price(price) || !quantity_is_good)?;
        self.check_time(time)?;
        self.check_session(time)?;
        self.check_static(price)?;
        if mode == 2 {
            return Ok(());
        }
        let limits = self.dynamic_limits(time);
        let exact = Exact::whole(price);
        refuse(5, limits.upper.below(exact) || exact.below(limits.lower))
    }

    fn check(&self, entry: &Entry) -> Result<(), u8> {
        match *entry {
            Entry::Clock { time } => self.check_time(time),
            Entry::Post { time, side, mode, price } => self.check_post(side, mode, price, time),
            Entry::Leave { time, side, price } => {
                refuse(1, !is_price(price))?;
                self.check_time(time)?;
                refuse(9, orders(&self.history, side, price) == 0)
            }
            Entry::Trade { time, mode, price, quantity } => {
                self.check_trade(mode, price, quantity, time)
            }
            Entry::Parameters { time, set } => {
                refuse(1, !set.in_range())?;
                self.check_time(time)
            }
            Entry::Reference { time, session, price } => {
                refuse(1, !(1..=4).contains(&session) || !is_price(price))?;
                self.check_time(time)
            }
            Entry::Ruling { time, price } => {
                refuse(1, !is_price(price))?;
                self.check_time(time)
            }
        }
    }

    /// The price of an accepted entry's ground, or none.
    fn ground(&self, entry: &Entry) -> Option<u32> {
        match *entry {
            Entry::Trade { mode: 0, price, .. } | Entry::Ruling { price, .. } => Some(price),
            _ => self.ripe(entry.time()),
        }
    }

    /// Sends an entry; the answer is its trail line.
    pub fn send(&mut self, entry: &Entry) -> (u8, u32) {
        if let Err(number) = self.check(entry) {
            return (number, 0);
        }
        let quotation = self.ground(entry).unwrap_or(self.quotation());
        self.history.push(Past { entry: *entry, quotation });
        (0, quotation)
    }
}

fn refuse(number: u8, cause: bool) -> Result<(), u8> {
    if cause { Err(number) } else { Ok(()) }
}

// What a list of accepted entries says.

fn parameters(history: &[Past]) -> Option<Parameters> {
    history.iter().rev().find_map(|past| match past.entry {
        Entry::Parameters { set, .. } => Some(set),
        _ => None,
    })
}

fn reference(history: &[Past], wanted: u8) -> Option<u32> {
    history.iter().rev().find_map(|past| match past.entry {
        Entry::Reference { session, price, .. } if session == wanted => Some(price),
        _ => None,
    })
}

/// The change that an entry makes to the number of orders of a side, with its price.
fn change(past: &Past, of: Side) -> Option<(u32, isize)> {
    match past.entry {
        Entry::Post { side, mode: 0, price, .. } if side == of => Some((price, 1)),
        Entry::Leave { side, price, .. } if side == of => Some((price, -1)),
        _ => None,
    }
}

/// The orders standing at a side and price: posts in mode 0 less leaves.
fn orders(history: &[Past], side: Side, price: u32) -> usize {
    let sum: isize = history
        .iter()
        .filter_map(|past| change(past, side))
        .filter(|(at, _)| *at == price)
        .map(|(_, by)| by)
        .sum();
    usize::try_from(sum).expect("fewer leaves than posts")
}

/// Each price of a side at which an order stands, lowest first, with its number of orders.
fn standing(history: &[Past], side: Side) -> Vec<(u32, usize)> {
    let mut changes: Vec<(u32, isize)> =
        history.iter().filter_map(|past| change(past, side)).collect();
    changes.sort_unstable_by_key(|(price, _)| *price);
    changes
        .chunk_by(|a, b| a.0 == b.0)
        .map(|at_price| (at_price[0].0, at_price.iter().map(|(_, by)| by).sum::<isize>()))
        .filter(|(_, count)| *count > 0)
        .map(|(price, count)| (price, count as usize))
        .collect()
}

fn best(history: &[Past], side: Side) -> Option<u32> {
    let levels = standing(history, side);
    let best = match side {
        Side::Buy => levels.last(),
        Side::Sell => levels.first(),
    };
    best.map(|(price, _)| *price)
}

/// The time of the last post at a side and price that found no order standing there.
fn since(history: &[Past], side: Side, price: u32) -> u32 {
    let mut count = 0;
    let mut since = None;
    for past in history {
        if let Some((at, by)) = change(past, side) {
            if at == price {
                if count == 0 {
                    since = Some(past.entry.time());
                }
                count += by;
            }
        }
    }
    since.expect("a post at this price")
}

/// The level that most recently lost its last order while it was the best of its side.
fn forerunner(history: &[Past], of: Side) -> Option<Forerunner> {
    for place in (0..history.len()).rev() {
        let Entry::Leave { time, side, price } = history[place].entry else {
            continue;
        };
        let before = &history[..place];
        if side == of && orders(before, side, price) == 1 && best(before, side) == Some(price) {
            let stood = since(before, side, price);
            return Some(Forerunner { price, since: stood, life: time - stood });
        }
    }
    None
}
