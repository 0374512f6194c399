//! Tests that are not random: damaged feeds, misuses of the boundary, full levels and full sides.
use crate::boundary;
use crate::compare::{self, Difference};
use crate::entries::{BoardMake, Entry, Parameters, PlanMake, Side, Window};
use crate::expected::{self, BOARD_REFUSED, CUT_SHORT, MALFORMED, PLAN_REFUSED, UNKNOWN_BOARD, UNKNOWN_PLAN};
use crate::feed;
use crate::generate;
use crate::job::{Body, DayJob, Feed, Job};
use crate::random::Random;

const TEN: u32 = 36_000_000;
const USUAL: Parameters = Parameters { sp: 1_000, l: 100, ur: 1_300, lr: 700 };
const QUOTED: PlanMake = PlanMake::Fixed { days: 1, group: 0 };
const SMALL: BoardMake = BoardMake::Ladder { count: 16 };

/// A failure, in words.
pub type Failure = String;

fn told(what: &str, difference: Difference) -> Failure {
    format!("{what}: {difference}")
}

fn one_day(board: BoardMake, plan: PlanMake, bodies: Vec<Body>) -> Job {
    let feeds = bodies.into_iter().map(|body| Feed { limits_time: TEN + 5_000, body }).collect();
    Job { board, plan, days: vec![DayJob { time: 0, given: USUAL, feeds }] }
}

fn expect(what: &str, job: &[u8], result: i64) -> Result<(), Failure> {
    match expected::replay(job) {
        Err(found) if found == result => {}
        other => return Err(format!("{what}: the reference answers {other:?}, not {result}")),
    }
    compare::check(job).map_err(|d| told(what, d))?;
    compare::check_lengths(job).map_err(|d| told(what, d))
}

/// A list with every kind of entry, some of them out of range.
pub fn every_kind() -> Vec<Entry> {
    let time = TEN;
    vec![
        Entry::Clock { time },
        Entry::Post { time, side: Side::Buy, mode: 0, price: 1_010 },
        Entry::Post { time, side: Side::Sell, mode: 2, price: 1_020 },
        Entry::Post { time, side: Side::Sell, mode: 3, price: 0 },
        Entry::Leave { time, side: Side::Buy, price: 1_010 },
        Entry::Trade { time, mode: 0, price: 1_000, quantity: 250 },
        Entry::Trade { time, mode: 3, price: 1_000, quantity: 0 },
        Entry::Parameters { time, set: Parameters { sp: 1_000, l: 100, ur: 1_300, lr: 700 } },
        Entry::Reference { time, session: 2, price: 1_005 },
        Entry::Reference { time, session: 7, price: (1 << 30) - 1 },
        Entry::Reference { time, session: 0, price: 1_005 },
        Entry::Ruling { time, price: 990 },
        Entry::Clock { time: (1 << 30) - 1 },
    ]
}

/// Every truncation and every flipped bit of a feed with every kind; the worked faults of docs/FEED.md.
pub fn damaged_feeds() -> Result<usize, Failure> {
    let whole = feed::write_all(&every_kind());
    let mut feeds: Vec<Vec<u8>> = (0..=whole.len()).map(|length| whole[..length].to_vec()).collect();
    for bit in 0..whole.len() * 8 {
        let mut flipped = whole.clone();
        flipped[bit / 8] ^= 0x80 >> (bit % 8);
        feeds.push(flipped);
    }
    for length in [65_535, 65_536, 65_537, 100_000] {
        feeds.push(vec![0; length]);
    }
    for first in 0..=255 {
        feeds.push(vec![first]);
        feeds.push([vec![first], vec![0; 19]].concat());
        feeds.push([vec![first], vec![255; 19]].concat());
    }
    let count = feeds.len();
    for bytes in feeds {
        let job = one_day(SMALL, QUOTED, vec![Body::Bytes(bytes.clone())]);
        let what = || format!("the feed {bytes:02X?}");
        compare::check(&job.bytes()).map_err(|d| told(&what(), d))?;
    }
    Ok(count)
}

/// Jobs that are cut short at every byte, too long, or changed in one byte.
pub fn damaged_jobs(random: &mut Random) -> Result<usize, Failure> {
    let mut count = 0;
    for _ in 0..40 {
        let whole = generate::job(random).bytes();
        for length in 0..whole.len().min(1_500) {
            compare::check(&whole[..length]).map_err(|d| told("a job cut short", d))?;
        }
        for at in 0..whole.len().min(400) {
            let mut changed = whole.clone();
            changed[at] = random.pick(&[0, 1, 2, 16, 127, 128, 255, changed[at] ^ 1]);
            compare::check(&changed).map_err(|d| told("a job with a changed byte", d))?;
            compare::check_lengths(&changed).map_err(|d| told("a job with a changed byte", d))?;
            count += 2;
        }
        count += whole.len().min(1_500);
    }
    Ok(count)
}

/// Every negative result but want of memory, each by a job made for it.
pub fn misuses() -> Result<usize, Failure> {
    let good = one_day(SMALL, QUOTED, vec![Body::Entries(every_kind())]);
    let bytes = good.bytes();
    compare::check_lengths(&bytes).map_err(|d| told("a good job", d))?;
    expect("no bytes", &[], CUT_SHORT)?;
    expect("a job cut by one byte", &bytes[..bytes.len() - 1], CUT_SHORT)?;
    expect("a job with a byte more", &[&bytes[..], &[0]].concat(), MALFORMED)?;
    let mut other = bytes.clone();
    other[0] = 2;
    expect("an unknown board", &other, UNKNOWN_BOARD)?;
    other = bytes.clone();
    other[5] = 2;
    expect("an unknown plan", &other, UNKNOWN_PLAN)?;
    let mut count = 5;
    for board in [
        BoardMake::Ladder { count: 15 },
        BoardMake::Ladder { count: 4_097 },
        BoardMake::Grid { start: 0 },
        BoardMake::Grid { start: 999_999_746 },
    ] {
        let job = one_day(board, QUOTED, Vec::new()).bytes();
        expect("a refused board", &job, BOARD_REFUSED - 1)?;
        count += 1;
    }
    for plan in [(0, 0), (11, 0), (1, 2), (u32::MAX, u32::MAX)] {
        let job = one_day(SMALL, plan.into(), Vec::new()).bytes();
        expect("a refused plan", &job, PLAN_REFUSED - 1)?;
        count += 1;
    }
    Ok(count + windows()?)
}

/// Announced plans that are refused with 1, 12 and 13, and one whose window is neither free nor bounded.
fn windows() -> Result<usize, Failure> {
    let window = |i: u32| Window { start: i * 1_000, end: (i + 1) * 1_000, session: 2, bounding: 1, k: 100 };
    let full: Vec<Window> = (0..32).map(window).collect();
    let with = |new: Window| {
        let windows = [&full[..], &[new]].concat();
        one_day(SMALL, PlanMake::Announced { windows }, Vec::new()).bytes()
    };
    let last = window(32);
    expect("a 33rd window", &with(last), PLAN_REFUSED - 13)?;
    expect("an overlapping window", &with(Window { start: 31_999, ..last }), PLAN_REFUSED - 12)?;
    expect("an empty window", &with(Window { start: 33_000, ..last }), PLAN_REFUSED - 1)?;
    expect("a session 0", &with(Window { session: 0, ..last }), PLAN_REFUSED - 1)?;
    expect("a session 5", &with(Window { session: 5, ..last }), PLAN_REFUSED - 1)?;
    expect("a K of 1001", &with(Window { k: 1_001, bounding: 0, ..last }), PLAN_REFUSED - 1)?;
    expect("a late end", &with(Window { end: 864_000_001, ..last }), PLAN_REFUSED - 1)?;
    expect("a window of no kind", &with(Window { bounding: 2, ..last }), MALFORMED)?;
    let windows = full.clone();
    let job = one_day(SMALL, PlanMake::Announced { windows }, Vec::new());
    compare::check(&job.bytes()).map_err(|d| told("32 windows", d))?;
    Ok(9)
}

/// A level filled to 65,535 orders, over feeds of the greatest length: docs/EXAMPLES.md, 40.
pub fn full_level(board: BoardMake) -> Result<usize, Failure> {
    let post = |time: u32, price: u32| Entry::Post { time, side: Side::Buy, mode: 0, price };
    let leave = Entry::Leave { time: TEN + 1, side: Side::Buy, price: 990 };
    let mut entries = vec![post(TEN, 990); 65_534];
    entries.extend([post(TEN, 990), post(TEN + 1, 990), post(TEN + 1, 989), leave]);
    entries.extend([post(TEN + 2, 990), post(TEN + 2, 990), Entry::Clock { time: TEN + 9_000 }]);
    let bodies = entries.chunks(7_281).map(|part| Body::Entries(part.to_vec())).collect();
    let job = one_day(board, QUOTED, bodies).bytes();
    compare::check(&job).map_err(|d| told("a full level", d))?;
    let answers = trail_of_last_feed(&job);
    let end: Vec<u8> = answers[answers.len() - 7..].to_vec();
    match end[..] == [0, 7, 0, 0, 0, 7, 0] {
        true => Ok(entries.len()),
        false => Err(format!("a full level: the last answers are {end:?}")),
    }
}

/// Both sides of a ladder of 4,096 filled, and one order more on each.
pub fn full_sides() -> Result<usize, Failure> {
    let mut entries = Vec::new();
    for i in 0..4_097 {
        entries.push(Entry::Post { time: TEN, side: Side::Buy, mode: 0, price: 100_000 - i });
        entries.push(Entry::Post { time: TEN, side: Side::Sell, mode: 0, price: 100_001 + i });
    }
    entries.push(Entry::Post { time: TEN, side: Side::Buy, mode: 0, price: 100_000 });
    let given = Parameters { sp: 100_000, l: 0, ur: 1_000_000, lr: 0 };
    let bodies = entries.chunks(7_281).map(|part| Body::Entries(part.to_vec())).collect();
    let mut job = one_day(BoardMake::Ladder { count: 4_096 }, QUOTED, bodies);
    job.days[0].given = given;
    compare::check(&job.bytes()).map_err(|d| told("full sides", d))?;
    let answers = trail_of_last_feed(&job.bytes());
    let end: Vec<u8> = answers[answers.len() - 3..].to_vec();
    match end[..] == [8, 8, 0] {
        true => Ok(entries.len()),
        false => Err(format!("full sides: the last answers are {end:?}")),
    }
}

/// The answers in the trail of a job's last feed, found from the end of what the boundary tells.
fn trail_of_last_feed(job: &[u8]) -> Vec<u8> {
    let mut out = vec![0; boundary::length(job).max(0) as usize];
    boundary::replay(job, &mut out);
    let mut left = &out[1..];
    let mut answers = Vec::new();
    while left.len() > 7 {
        let count = u32::from_be_bytes(left[9..13].try_into().unwrap()) as usize;
        answers = left[13..13 + 5 * count].iter().step_by(5).copied().collect();
        left = &left[13 + 5 * count..];
        for _ in Side::BOTH {
            let levels = u16::from_be_bytes(left[..2].try_into().unwrap()) as usize;
            left = &left[2 + 10 * levels..];
        }
        left = &left[24 + 20 + 4 + 26..];
        for _ in 0..2 {
            left = &left[if left[0] == 0 { 17 } else { 1 }..];
        }
    }
    answers
}
