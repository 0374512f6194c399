//! A job of the boundary: as data, as bytes, and as text. README.md has its format.
use crate::entries::{BoardMake, Entry, Parameters, PlanMake, Window};
use crate::feed;
use std::fmt;

/// A feed, as entries or as bytes that may be damaged, and the time at which the limits are asked behind it.
#[derive(Clone, PartialEq, Eq, Debug)]
pub struct Feed {
    pub limits_time: u32,
    pub body: Body,
}

#[derive(Clone, PartialEq, Eq, Debug)]
pub enum Body {
    Entries(Vec<Entry>),
    Bytes(Vec<u8>),
}

impl Body {
    pub fn bytes(&self) -> Vec<u8> {
        match self {
            Body::Entries(entries) => feed::write_all(entries),
            Body::Bytes(bytes) => bytes.clone(),
        }
    }

    pub fn entries(&self) -> Vec<Entry> {
        match self {
            Body::Entries(entries) => entries.clone(),
            Body::Bytes(bytes) => feed::read(bytes).0,
        }
    }
}

#[derive(Clone, PartialEq, Eq, Debug)]
pub struct DayJob {
    pub time: u32,
    pub given: Parameters,
    pub feeds: Vec<Feed>,
}

#[derive(Clone, PartialEq, Eq, Debug)]
pub struct Job {
    pub board: BoardMake,
    pub plan: PlanMake,
    pub days: Vec<DayJob>,
}

impl Job {
    pub fn entry_count(&self) -> usize {
        let feeds = self.days.iter().flat_map(|day| &day.feeds);
        feeds.map(|feed| feed.body.entries().len()).sum()
    }

    pub fn bytes(&self) -> Vec<u8> {
        let mut out = Vec::new();
        let (kind, figure) = match self.board {
            BoardMake::Ladder { count } => (0, count),
            BoardMake::Grid { start } => (1, start),
        };
        out.push(kind);
        put_u32(&mut out, figure);
        put_plan(&mut out, &self.plan);
        put_u16(&mut out, self.days.len());
        for day in &self.days {
            let Parameters { sp, l, ur, lr } = day.given;
            for figure in [day.time, sp, l, ur, lr] {
                put_u32(&mut out, figure);
            }
            put_u16(&mut out, day.feeds.len());
            for feed in &day.feeds {
                let bytes = feed.body.bytes();
                put_u32(&mut out, feed.limits_time);
                put_u32(&mut out, bytes.len() as u32);
                out.extend(bytes);
            }
        }
        out
    }
}

fn put_u32(out: &mut Vec<u8>, value: u32) {
    out.extend(value.to_be_bytes());
}

fn put_u16(out: &mut Vec<u8>, value: usize) {
    out.extend(u16::try_from(value).expect("a count of 16 bits").to_be_bytes());
}

fn put_plan(out: &mut Vec<u8>, plan: &PlanMake) {
    match plan {
        PlanMake::Fixed { days, group } => {
            out.push(0);
            put_u32(out, *days);
            put_u32(out, *group);
        }
        PlanMake::Announced { windows } => {
            out.push(1);
            put_u16(out, windows.len());
            for Window { start, end, session, bounding, k } in windows {
                put_u32(out, *start);
                put_u32(out, *end);
                out.push(*session);
                out.push(*bounding);
                put_u32(out, *k);
            }
        }
    }
}

/// A job is shown as a script of docs/SCRIPT.md, with comments where a script has no word for it.
impl fmt::Display for Job {
    fn fmt(&self, f: &mut fmt::Formatter) -> fmt::Result {
        match self.board {
            BoardMake::Ladder { count } => writeln!(f, "board ladder {count}")?,
            BoardMake::Grid { start } => writeln!(f, "board grid {start}")?,
        }
        match &self.plan {
            PlanMake::Fixed { days, group } => writeln!(f, "plan fixed {days} {group}")?,
            PlanMake::Announced { windows } => {
                writeln!(f, "plan announced")?;
                for w in windows {
                    let word = if w.bounding == 0 { "free" } else { "bounded" };
                    writeln!(f, "window {} {} {} {word} {}", w.start, w.end, w.session, w.k)?;
                }
            }
        }
        writeln!(f, "listed")?;
        for day in &self.days {
            let Parameters { sp, l, ur, lr } = day.given;
            writeln!(f, "open {} {sp} {l} {ur} {lr}", day.time)?;
            for feed in &day.feeds {
                if let Body::Bytes(bytes) = &feed.body {
                    writeln!(f, "# a feed of these bytes: {bytes:02X?}")?;
                }
                for entry in feed.body.entries() {
                    writeln!(f, "{entry}")?;
                }
                writeln!(f, "limits static {}", feed.limits_time)?;
                writeln!(f, "limits dynamic {}", feed.limits_time)?;
            }
            writeln!(f, "close")?;
        }
        Ok(())
    }
}
