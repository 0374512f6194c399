//! What the boundary should answer to the bytes of a job, by the reference engine.
use crate::entries::{BoardMake, Parameters, PlanMake, Side, Window};
use crate::feed;
use crate::reference::{Closed, Day};

/// The negative results of the boundary, as README.md has them.
pub const CUT_SHORT: i64 = -1;
pub const MALFORMED: i64 = -2;
pub const UNKNOWN_BOARD: i64 = -3;
pub const UNKNOWN_PLAN: i64 = -4;
pub const OUTPUT_TOO_SHORT: i64 = -5;
pub const BOARD_REFUSED: i64 = -100;
pub const PLAN_REFUSED: i64 = -200;

struct Cursor<'a> {
    left: &'a [u8],
}

impl<'a> Cursor<'a> {
    fn bytes(&mut self, count: usize) -> Result<&'a [u8], i64> {
        if self.left.len() < count {
            return Err(CUT_SHORT);
        }
        let (taken, left) = self.left.split_at(count);
        self.left = left;
        Ok(taken)
    }

    fn u8(&mut self) -> Result<u8, i64> {
        Ok(self.bytes(1)?[0])
    }

    fn u16(&mut self) -> Result<u16, i64> {
        Ok(u16::from_be_bytes(self.bytes(2)?.try_into().unwrap()))
    }

    fn u32(&mut self) -> Result<u32, i64> {
        Ok(u32::from_be_bytes(self.bytes(4)?.try_into().unwrap()))
    }
}

/// The bytes that the boundary should write, or its negative result for any length of output.
pub fn replay(job: &[u8]) -> Result<Vec<u8>, i64> {
    let mut job = Cursor { left: job };
    let board = read_board(&mut job)?;
    let plan = read_plan(&mut job)?;
    let mut out = Vec::new();
    let mut closed = Closed::NEWLY_LISTED;
    for _ in 0..job.u16()? {
        closed = replay_day(&mut job, board, &plan, closed, &mut out)?;
    }
    if job.left.is_empty() { Ok(out) } else { Err(MALFORMED) }
}

fn read_board(job: &mut Cursor) -> Result<BoardMake, i64> {
    let kind = job.u8()?;
    if kind > 1 {
        return Err(UNKNOWN_BOARD);
    }
    let figure = job.u32()?;
    let board = match kind {
        0 => BoardMake::Ladder { count: figure },
        _ => BoardMake::Grid { start: figure },
    };
    match board.first_test() {
        Ok(()) => Ok(board),
        Err(number) => Err(BOARD_REFUSED - i64::from(number)),
    }
}

fn read_plan(job: &mut Cursor) -> Result<PlanMake, i64> {
    let refused = |number: u8| PLAN_REFUSED - i64::from(number);
    match job.u8()? {
        0 => {
            let plan = PlanMake::Fixed { days: job.u32()?, group: job.u32()? };
            plan.first_test().map_err(refused)?;
            Ok(plan)
        }
        1 => {
            let mut windows = Vec::new();
            for _ in 0..job.u16()? {
                let (start, end) = (job.u32()?, job.u32()?);
                let (session, bounding, k) = (job.u8()?, job.u8()?, job.u32()?);
                if bounding > 1 {
                    return Err(MALFORMED);
                }
                let new = Window { start, end, session, bounding, k };
                crate::entries::window_answer(&windows, &new).map_err(refused)?;
                windows.push(new);
            }
            Ok(PlanMake::Announced { windows })
        }
        _ => Err(UNKNOWN_PLAN),
    }
}

fn replay_day(
    job: &mut Cursor,
    board: BoardMake,
    plan: &PlanMake,
    closed: Closed,
    out: &mut Vec<u8>,
) -> Result<Closed, i64> {
    let time = job.u32()?;
    let given = Parameters { sp: job.u32()?, l: job.u32()?, ur: job.u32()?, lr: job.u32()? };
    let feeds = job.u16()?;
    let mut day = match Day::open(closed, board, plan, time, given) {
        Ok(day) => day,
        Err(number) => {
            out.push(number);
            for _ in 0..feeds {
                job.u32()?;
                let length = job.u32()? as usize;
                job.bytes(length)?;
            }
            return Ok(closed);
        }
    };
    out.push(0);
    for _ in 0..feeds {
        let limits_time = job.u32()?;
        let length = job.u32()? as usize;
        replay_feed(&mut day, job.bytes(length)?, limits_time, out);
    }
    let after = day.close();
    put_option(out, after.quotation);
    out.extend([after.up_left, after.down_left]);
    Ok(after)
}

fn replay_feed(day: &mut Day, bytes: &[u8], limits_time: u32, out: &mut Vec<u8>) {
    let (entries, fault) = feed::read(bytes);
    let (number, record, bit) = fault.map_or((0, 0, 0), |f| (f.number, f.record, f.bit));
    out.push(number);
    put(out, record);
    put(out, bit);
    put(out, entries.len() as u32);
    for entry in &entries {
        let (answer, quotation) = day.send(entry);
        out.push(answer);
        put(out, quotation);
    }
    for side in Side::BOTH {
        let levels = day.levels(side);
        out.extend((levels.len() as u16).to_be_bytes());
        for level in levels {
            put(out, level.price);
            out.extend((level.orders as u16).to_be_bytes());
            put(out, level.since);
        }
    }
    put_figures(day, out);
    put_limits(out, day.limits(false, limits_time));
    put_limits(out, day.limits(true, limits_time));
}

fn put_figures(day: &Day, out: &mut Vec<u8>) {
    let Parameters { sp, l, ur, lr } = day.parameters();
    for figure in [day.time(), day.quotation(), sp, l, ur, lr] {
        put(out, figure);
    }
    for session in 1..=4 {
        put_option(out, day.reference(session));
    }
    let ((up, down), (up_left, down_left)) = (day.marks(), day.days_left());
    out.extend([u8::from(up), u8::from(down), up_left, down_left]);
    for side in Side::BOTH {
        match day.forerunner(side) {
            Some(f) => {
                out.push(1);
                for figure in [f.price, f.since, f.life] {
                    put(out, figure);
                }
            }
            None => out.extend([0; 13]),
        }
    }
}

fn put_limits(out: &mut Vec<u8>, limits: Result<(u64, u64), u8>) {
    match limits {
        Ok((lower, upper)) => {
            out.push(0);
            out.extend(lower.to_be_bytes());
            out.extend(upper.to_be_bytes());
        }
        Err(number) => out.push(number),
    }
}

fn put_option(out: &mut Vec<u8>, figure: Option<u32>) {
    out.push(u8::from(figure.is_some()));
    put(out, figure.unwrap_or(0));
}

fn put(out: &mut Vec<u8>, figure: u32) {
    out.extend(figure.to_be_bytes());
}
