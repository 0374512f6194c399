//! Random jobs that live at the edges of the rules. The reference engine steers: it tells where the edges are.
use crate::entries::{BoardMake, Entry, Parameters, PlanMake, Side, Slot, Window};
use crate::entries::{GREATEST_PRICE, GREATEST_QUANTITY, LAST_TIME};
use crate::job::{Body, DayJob, Feed, Job};
use crate::random::Random;
use crate::reference::{Closed, Day};
use std::collections::VecDeque;

const WIDEST: u32 = (1 << 30) - 1;
const DAY: u32 = 86_400_000;

/// A random job, of some hundred entries at most.
pub fn job(random: &mut Random) -> Job {
    let sp = settlement_price(random);
    let plan = plan(random);
    let board = board(random, sp);
    let mut days = Vec::new();
    let mut closed = Closed::NEWLY_LISTED;
    for _ in 0..random.pick(&[1, 1, 1, 2, 2, 3, 4, 5]) {
        let (day, after) = day(random, board, &plan, sp, closed);
        days.push(day);
        closed = after;
    }
    Job { board, plan, days }
}

fn settlement_price(random: &mut Random) -> u32 {
    match random.below(20) {
        0 => random.from_to(1, 12),
        1 => random.from_to(90, 110),
        2 => random.from_to(990_000, 1_010_000),
        3 => random.from_to(999_999_000, GREATEST_PRICE),
        4 => GREATEST_PRICE - random.from_to(0, 1),
        5 => random.from_to(1, GREATEST_PRICE),
        _ => random.from_to(900, 1_100),
    }
}

/// Parameters about a settlement price, seldom out of range.
fn parameters(random: &mut Random, sp: u32) -> Parameters {
    let l = match random.below(8) {
        0 => 0,
        1 => sp / 2,
        2 => random.from_to(0, GREATEST_PRICE),
        _ => random.from_to(0, (sp / 3).max(1)),
    };
    let lr = random.from_to(0, sp.min(1_000_000));
    let width = match random.below(8) {
        0 => 0,
        1 => random.from_to(1, 30),
        2 => sp.saturating_mul(2),
        3 => sp + sp / 2 + random.from_to(0, 2),
        _ => random.from_to(100, 900),
    };
    let mut set = Parameters { sp, l, ur: (lr + width).min(GREATEST_PRICE), lr };
    if random.permille(40) {
        spoil(random, &mut set);
    }
    set
}

fn spoil(random: &mut Random, set: &mut Parameters) {
    match random.below(5) {
        0 => set.sp = random.pick(&[0, GREATEST_PRICE + 1, WIDEST]),
        1 => set.l = random.pick(&[GREATEST_PRICE, GREATEST_PRICE + 1, WIDEST]),
        2 => set.ur = random.pick(&[GREATEST_PRICE, GREATEST_PRICE + 1, WIDEST]),
        3 => set.lr = set.ur.saturating_add(1),
        _ => set.lr = set.ur,
    }
}

fn board(random: &mut Random, sp: u32) -> BoardMake {
    match random.below(100) {
        0 => BoardMake::Ladder { count: random.pick(&[0, 15, 4_097, u32::MAX]) },
        1 => BoardMake::Grid { start: random.pick(&[0, 999_999_746, u32::MAX]) },
        2..=4 => BoardMake::Ladder { count: random.pick(&[256, 4_096]) },
        5..=9 => BoardMake::Ladder { count: random.from_to(17, 40) },
        10..=49 => BoardMake::Ladder { count: 16 },
        _ => {
            let start = i64::from(sp) - i64::from(random.pick(&[0, 5, 60, 120, 200, 250, 255]));
            BoardMake::Grid { start: start.clamp(1, 999_999_745) as u32 }
        }
    }
}

fn plan(random: &mut Random) -> PlanMake {
    if random.percent(55) {
        let days = if random.percent(60) { 1 } else { random.from_to(1, 10) };
        let mut plan = PlanMake::Fixed { days, group: random.from_to(0, 1) };
        if random.permille(8) {
            plan = random.pick(&[(0, 0), (11, 1), (1, 2), (u32::MAX, 0), (1, u32::MAX)]).into();
        }
        return plan;
    }
    let count = match random.below(12) {
        0 => random.from_to(31, 33),
        1 => 0,
        _ => random.from_to(1, 6),
    };
    PlanMake::Announced { windows: windows(random, count) }
}

impl From<(u32, u32)> for PlanMake {
    fn from((days, group): (u32, u32)) -> PlanMake {
        PlanMake::Fixed { days, group }
    }
}

/// Windows one behind the other, touching or one millisecond apart, in any order, seldom overlapping or out of range.
fn windows(random: &mut Random, count: u32) -> Vec<Window> {
    let mut at = random.pick(&[0, 1, 36_000_000, 36_000_000, 863_000_000]);
    let mut windows = Vec::new();
    for _ in 0..count {
        at += random.pick(&[0, 0, 0, 1, 2, 5_000]);
        let length = random.pick(&[1, 2, 5_000, 20_000, 60_000, 60_000, 300_000, 300_000, 900_000]);
        windows.push(Window {
            start: at,
            end: at + length,
            session: random.pick(&[1, 2, 2, 2, 3, 4]),
            bounding: random.pick(&[0, 1, 1]),
            k: random.pick(&[0, 1, 30, 99, 100, 101, 180, 220, 250, 999, 1_000]),
        });
        at += length;
    }
    if count > 0 && random.permille(30) {
        let which = random.below(windows.len() as u64) as usize;
        spoil_window(random, &mut windows[which]);
    }
    for i in (1..windows.len()).rev() {
        windows.swap(i, random.below(i as u64 + 1) as usize);
    }
    windows
}

fn spoil_window(random: &mut Random, window: &mut Window) {
    match random.below(6) {
        0 => window.session = random.pick(&[0, 5, 255]),
        1 => window.k = random.pick(&[1_001, u32::MAX]),
        2 => window.end = window.start,
        3 => window.end = random.pick(&[864_000_000, 864_000_001, u32::MAX]),
        4 => window.start = window.start.saturating_sub(1),
        _ => window.end += 1,
    }
}

/// The starts and ends of a plan's windows.
fn edges(plan: &PlanMake) -> Vec<u32> {
    match plan {
        PlanMake::Announced { windows } => windows.iter().flat_map(|w| [w.start, w.end]).collect(),
        PlanMake::Fixed { days, .. } => {
            let mut edges = Vec::new();
            for day in 0..(*days).clamp(1, 10) {
                let hours: &[u32] = match day + 1 == *days {
                    true => &[25_200_000, 36_000_000, 68_400_000, 85_800_000],
                    false => &[36_000_000, 85_800_000],
                };
                edges.extend(hours.iter().map(|hour| day * DAY + hour));
            }
            edges
        }
    }
}

/// A day that is being made, beside the reference engine that is sent the same entries.
struct Making<'a, 'b> {
    random: &'b mut Random,
    board: BoardMake,
    plan: &'a PlanMake,
    sp: u32,
    edges: Vec<u32>,
    day: Day<'a>,
    queue: VecDeque<Entry>,
}

fn day(
    random: &mut Random,
    board: BoardMake,
    plan: &PlanMake,
    sp: u32,
    closed: Closed,
) -> (DayJob, Closed) {
    let edges = edges(plan);
    let given = parameters(random, sp);
    let time = opening_time(random, &edges);
    let steering = Day::open(closed, board, plan, time, given);
    let usual = Parameters { sp, l: sp / 5, ur: 900, lr: 300 };
    let (day, refused) = match steering {
        Ok(day) => (day, false),
        Err(_) => (Day::open(closed, board, plan, 0, usual).expect("good parameters"), true),
    };
    let mut making = Making { random, board, plan, sp, edges, day, queue: VecDeque::new() };
    let feeds = making.feeds();
    let after = if refused { closed } else { making.day.close() };
    (DayJob { time, given, feeds }, after)
}

fn opening_time(random: &mut Random, edges: &[u32]) -> u32 {
    match random.below(50) {
        0 => random.pick(&[LAST_TIME, LAST_TIME + 1, u32::MAX]),
        1..=9 => random.from_to(0, 1_000),
        10..=29 if !edges.is_empty() => random.pick(edges).saturating_sub(random.from_to(0, 3)),
        30.. if !edges.is_empty() => edges[0].saturating_add(random.from_to(0, 400)).min(LAST_TIME),
        _ => 0,
    }
}

impl Making<'_, '_> {
    fn feeds(&mut self) -> Vec<Feed> {
        let count = self.random.pick(&[0, 1, 1, 1, 1, 2, 2, 3]);
        let most = self.random.pick(&[10, 40, 40, 90, 90, 150, 400]);
        (0..count).map(|_| self.feed(most)).collect()
    }

    fn feed(&mut self, most: u32) -> Feed {
        let mut entries = Vec::new();
        for _ in 0..self.random.from_to(0, most) {
            if self.is_over() && self.random.percent(60) {
                break;
            }
            let entry = self.entry();
            self.day.send(&entry);
            entries.push(entry);
        }
        let limits_time = match self.random.below(20) {
            0 => self.day.time().wrapping_sub(1),
            1 => self.random.pick(&[LAST_TIME, LAST_TIME + 1, u32::MAX]),
            _ => self.time(),
        };
        let mut body = Body::Entries(entries);
        if self.random.permille(40) {
            body = Body::Bytes(damaged(self.random, body.bytes()));
        }
        Feed { limits_time, body }
    }

    /// Whether no session comes any more.
    fn is_over(&self) -> bool {
        let now = self.day.time();
        self.plan.slot(now) == Slot::NoSession && !self.edges.iter().any(|edge| *edge > now)
    }

    fn entry(&mut self) -> Entry {
        if self.queue.is_empty() && self.random.percent(15) {
            self.pattern();
        }
        if let Some(entry) = self.queue.pop_front() {
            return entry;
        }
        let time = self.time();
        match self.random.below(100) {
            0..=39 => self.post(time),
            40..=64 => self.leave(time),
            65..=76 => self.trade(time),
            77..=86 => Entry::Clock { time },
            87..=90 => Entry::Parameters { time, set: self.new_parameters() },
            91..=94 => {
                let session = self.random.pick(&[0, 1, 1, 2, 2, 2, 2, 2, 3, 3, 4, 4, 5, 7]);
                Entry::Reference { time, session, price: self.usual_price(time) }
            }
            _ => Entry::Ruling { time, price: self.usual_price(time) },
        }
    }

    /// A price near the settlement price, and seldom any other.
    fn usual_price(&mut self, time: u32) -> u32 {
        if self.random.percent(15) {
            return self.price(time);
        }
        let moved = i64::from(self.sp) + i64::from(self.random.from_to(0, self.sp.min(1_000) / 8));
        (moved - i64::from(self.sp.min(1_000) / 16)).clamp(0, WIDEST.into()) as u32
    }

    fn new_parameters(&mut self) -> Parameters {
        let sp = match self.random.below(16) {
            0 => settlement_price(self.random),
            1..=4 => (self.sp + self.random.from_to(0, 60)).min(GREATEST_PRICE),
            _ => self.sp,
        };
        let mut set = parameters(self.random, sp);
        for figure in [&mut set.sp, &mut set.l, &mut set.ur, &mut set.lr] {
            *figure = (*figure).min(WIDEST);
        }
        set
    }

    fn post(&mut self, time: u32) -> Entry {
        let side = self.random.pick(&Side::BOTH);
        let mode = self.random.pick(&[0, 0, 0, 0, 0, 0, 0, 0, 0, 0, 0, 0, 0, 0, 0, 0, 1, 2, 2, 3]);
        Entry::Post { time, side, mode, price: self.price(time) }
    }

    fn leave(&mut self, time: u32) -> Entry {
        let side = self.random.pick(&Side::BOTH);
        let price = match self.standing(side) {
            Some(price) if self.random.percent(95) => price,
            None if self.random.percent(85) => return self.post(time),
            _ => self.price(time),
        };
        Entry::Leave { time, side, price }
    }

    fn trade(&mut self, time: u32) -> Entry {
        let mode = self.random.pick(&[0, 0, 0, 0, 0, 1, 1, 2, 2, 3]);
        let quantity = match self.random.below(30) {
            0 => 0,
            1 => GREATEST_QUANTITY,
            _ => self.random.from_to(1, 100),
        };
        Entry::Trade { time, mode, price: self.price(time), quantity }
    }

    /// The price of a standing level of a side, mostly of the best.
    fn standing(&mut self, side: Side) -> Option<u32> {
        if self.random.percent(60) {
            return self.day.best(side);
        }
        let levels = self.day.levels(side);
        match levels.is_empty() {
            true => None,
            false => Some(levels[self.random.below(levels.len() as u64) as usize].price),
        }
    }

    fn near(&mut self, figure: u64) -> u32 {
        let moved = figure.min(u64::from(WIDEST)) as i64 + self.random.pick(&[-1, -1, 0, 0, 0, 1, 1]);
        moved.clamp(0, WIDEST.into()) as u32
    }

    /// A time for an entry: mostly not before the day's, and often at an edge.
    fn time(&mut self) -> u32 {
        let now = self.day.time();
        if self.plan.slot(now) == Slot::NoSession && self.random.percent(70) {
            return self.edge(now);
        }
        let time = match self.random.below(100) {
            0..=34 => now,
            35..=54 => now + self.random.from_to(1, 3),
            55..=79 => self.ripening(now),
            80..=84 => self.edge(now),
            85..=93 => now + self.random.from_to(1, 10_000),
            94..=96 => now.wrapping_sub(self.random.from_to(1, 2)),
            97 => self.random.from_to(0, now),
            98 if self.random.percent(5) => self.random.pick(&[LAST_TIME, LAST_TIME + 1, WIDEST]),
            _ => now + self.random.from_to(1, 900),
        };
        time.min(WIDEST)
    }

    /// A time about that at which a level is ripe.
    fn ripening(&mut self, now: u32) -> u32 {
        let side = self.random.pick(&Side::BOTH);
        let Some(price) = self.standing(side) else {
            return now + self.random.pick(&[4_999, 5_000, 5_001]);
        };
        let wait = match self.random.percent(60) {
            true => self.day.required(side, price),
            false => 5_000,
        };
        let ripe = u64::from(self.day.since(side, price)) + u64::from(wait);
        let time = self.near(ripe);
        if time < now && self.random.percent(90) { now } else { time }
    }

    /// A time about the next edge of the plan.
    fn edge(&mut self, now: u32) -> u32 {
        let next = self.edges.iter().copied().filter(|edge| *edge >= now).min();
        match next {
            Some(edge) => self.near(edge.into()).max(now),
            None => now,
        }
    }

    /// A price at one of the edges that the day has at a time, or near the quotation.
    fn price(&mut self, time: u32) -> u32 {
        let quotation = self.day.quotation();
        let at = time.clamp(self.day.time(), LAST_TIME);
        match self.random.below(100) {
            0..=39 => {
                let spread = self.random.pick(&[3, 12, 40]);
                let moved = i64::from(quotation) + i64::from(self.random.from_to(0, 2 * spread));
                (moved - i64::from(spread)).clamp(0, WIDEST.into()) as u32
            }
            40..=54 => {
                let (lower, upper) = self.day.limits(true, at).expect("a good time");
                let limit = self.random.pick(&[lower, upper]);
                self.near(limit)
            }
            55..=60 => {
                let (lower, upper) = self.day.limits(false, at).expect("a good time");
                let limit = self.random.pick(&[lower, upper]);
                self.near(limit)
            }
            61..=82 => {
                let side = self.random.pick(&Side::BOTH);
                let price = self.standing(side).unwrap_or(quotation);
                self.near(price.into())
            }
            83..=88 => self.board_edge(quotation),
            89..=95 => self.mark_edge(),
            96 => self.random.pick(&[0, 1, GREATEST_PRICE, GREATEST_PRICE + 1, WIDEST]),
            _ => self.random.from_to(1, (2 * self.sp).min(WIDEST)),
        }
    }

    fn board_edge(&mut self, otherwise: u32) -> u32 {
        match self.board {
            BoardMake::Grid { start } => {
                let edge = self.random.pick(&[u64::from(start), u64::from(start) + 255]);
                self.near(edge)
            }
            BoardMake::Ladder { .. } => self.near(otherwise.into()),
        }
    }

    /// A price about 18% away from the reference of the main session.
    fn mark_edge(&mut self) -> u32 {
        let lp = u64::from(self.day.reference(2).unwrap_or(self.day.parameters().sp));
        let share = self.random.pick(&[118, 82]);
        let beyond = self.random.below(2);
        self.near(lp * share / 100 + beyond)
    }

    /// Puts entries that belong together into the queue.
    fn pattern(&mut self) {
        let now = self.day.time().min(WIDEST - 40_000);
        match self.random.below(9) {
            0 => self.break_and_return(now),
            1 => self.mark(now),
            2 => self.fill(now),
            3 => self.sweep(now),
            4..=6 => self.credit(now),
            _ => self.chase(now),
        }
    }

    /// A level that ends and comes back within a millisecond.
    fn break_and_return(&mut self, time: u32) {
        let side = self.random.pick(&Side::BOTH);
        if let Some(price) = self.standing(side) {
            self.queue.push_back(Entry::Leave { time, side, price });
            self.queue.push_back(Entry::Post { time, side, mode: 0, price });
        }
    }

    /// A ruling, and then a trade about 18% away from the reference.
    fn mark(&mut self, now: u32) {
        let main = |time: &u32| matches!(self.plan.slot(*time), Slot::Bounded { session: 2, .. });
        let next = self.edges.iter().copied().filter(|edge| *edge >= now).find(main);
        let time = if main(&now) { now } else { next.unwrap_or(now) };
        let price = self.mark_edge();
        let mode = self.random.pick(&[0, 0, 0, 1]);
        let ruling = self.near(price.into()).max(1);
        self.queue.push_back(Entry::Ruling { time, price: ruling });
        self.queue.push_back(Entry::Trade { time, mode, price, quantity: 1 });
    }

    /// Many levels of one side, one price apart.
    fn fill(&mut self, mut time: u32) {
        let side = self.random.pick(&Side::BOTH);
        let quotation = self.day.quotation();
        let first = self.random.from_to(0, 20);
        for i in first..first + self.random.from_to(8, 18) {
            let price = match side {
                Side::Buy => quotation.saturating_sub(i),
                Side::Sell => (quotation + i).min(WIDEST),
            };
            self.queue.push_back(Entry::Post { time, side, mode: 0, price });
            time += self.random.pick(&[0, 0, 1]);
        }
    }

    /// A better level that ends young, and clocks about the time at which the next one is ripe.
    fn credit(&mut self, time: u32) {
        let side = self.random.pick(&Side::BOTH);
        let quotation = i64::from(self.day.quotation());
        let (near, far) = (i64::from(self.random.from_to(1, 15)), i64::from(self.random.from_to(16, 30)));
        let sign = if side == Side::Buy { 1 } else { -1 };
        let price = |by: i64| (quotation + sign * by).clamp(1, WIDEST.into()) as u32;
        let second = time + self.random.pick(&[0, 1, 2, 500, 1_000]);
        let end = second + self.random.pick(&[0, 1, 1_000, 3_998, 3_999, 4_000, 4_998, 4_999, 5_000]);
        let life = end - time;
        let wait = if time < second && life < 5_000 { 5_000 - life } else { 5_000 };
        self.queue.push_back(Entry::Post { time, side, mode: 0, price: price(far) });
        self.queue.push_back(Entry::Post { time: second, side, mode: 0, price: price(near) });
        self.queue.push_back(Entry::Leave { time: end, side, price: price(far) });
        for by in [0, 1] {
            let clock = (second + wait + by).saturating_sub(1).max(end);
            self.queue.push_back(Entry::Clock { time: clock });
        }
    }

    /// Every order of some levels of a side leaves, best first.
    fn sweep(&mut self, time: u32) {
        let side = self.random.pick(&Side::BOTH);
        for level in self.day.levels(side).iter().take(8) {
            for _ in 0..level.orders.min(3) {
                self.queue.push_back(Entry::Leave { time, side, price: level.price });
            }
        }
    }

    /// Better and better levels, each before or when the last one is ripe, with parameters and references between.
    fn chase(&mut self, mut time: u32) {
        let side = self.random.pick(&Side::BOTH);
        let mut price = i64::from(self.day.quotation());
        let sign = if side == Side::Buy { 1 } else { -1 };
        for _ in 0..self.random.from_to(2, 5) {
            price += sign * i64::from(self.random.from_to(1, 20));
            let level = price.clamp(1, WIDEST.into()) as u32;
            self.queue.push_back(Entry::Post { time, side, mode: 0, price: level });
            time += self.random.pick(&[0, 1, 2_500, 4_999, 5_000, 5_001]);
            if self.random.percent(40) {
                let set = self.new_parameters();
                self.queue.push_back(Entry::Parameters { time, set });
            }
            if self.random.percent(40) {
                self.queue.push_back(Entry::Reference { time, session: 2, price: level });
            }
        }
    }
}

/// Bytes of a feed with some damage.
pub fn damaged(random: &mut Random, mut bytes: Vec<u8>) -> Vec<u8> {
    if bytes.is_empty() {
        return vec![random.below(256) as u8];
    }
    let at = random.below(bytes.len() as u64) as usize;
    match random.below(5) {
        0 => bytes.truncate(at),
        1 => bytes[at] ^= 1 << random.below(8),
        2 => bytes.insert(at, random.below(256) as u8),
        3 => {
            bytes.remove(at);
        }
        _ => bytes.push(random.below(256) as u8),
    }
    bytes
}
