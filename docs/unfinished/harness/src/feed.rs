//! The feed of docs/FEED.md, read and written one bit at a time.
use crate::entries::{Entry, Parameters, Side};

pub const LONGEST_FEED: usize = 65_536;

/// A fault of a feed; record and bit are 0 for 17.
#[derive(Clone, Copy, PartialEq, Eq, Debug)]
pub struct Fault {
    pub number: u8,
    pub record: u32,
    pub bit: u32,
}

/// The fields of a record behind its kind, as widths.
fn widths(kind: u32) -> Option<&'static [u32]> {
    match kind {
        0 => Some(&[30]),
        1 => Some(&[30, 1, 2, 30]),
        2 => Some(&[30, 1, 30]),
        3 => Some(&[30, 2, 30, 24]),
        4 => Some(&[30, 30, 30, 30, 30]),
        5 => Some(&[30, 3, 30]),
        6 => Some(&[30, 30]),
        _ => None,
    }
}

fn fields(entry: &Entry) -> (u32, Vec<u32>) {
    let code = |side: Side| match side {
        Side::Buy => 0,
        Side::Sell => 1,
    };
    match *entry {
        Entry::Clock { time } => (0, vec![time]),
        Entry::Post { time, side, mode, price } => (1, vec![time, code(side), mode.into(), price]),
        Entry::Leave { time, side, price } => (2, vec![time, code(side), price]),
        Entry::Trade { time, mode, price, quantity } => (3, vec![time, mode.into(), price, quantity]),
        Entry::Parameters { time, set } => (4, vec![time, set.sp, set.l, set.ur, set.lr]),
        Entry::Reference { time, session, price } => (5, vec![time, session.into(), price]),
        Entry::Ruling { time, price } => (6, vec![time, price]),
    }
}

fn entry_of(kind: u32, f: &[u32]) -> Entry {
    let side = |bit: u32| if bit == 0 { Side::Buy } else { Side::Sell };
    match kind {
        0 => Entry::Clock { time: f[0] },
        1 => Entry::Post { time: f[0], side: side(f[1]), mode: f[2] as u8, price: f[3] },
        2 => Entry::Leave { time: f[0], side: side(f[1]), price: f[2] },
        3 => Entry::Trade { time: f[0], mode: f[1] as u8, price: f[2], quantity: f[3] },
        4 => {
            let set = Parameters { sp: f[1], l: f[2], ur: f[3], lr: f[4] };
            Entry::Parameters { time: f[0], set }
        }
        5 => Entry::Reference { time: f[0], session: f[1] as u8, price: f[2] },
        _ => Entry::Ruling { time: f[0], price: f[1] },
    }
}

fn record_bits(kind_widths: &[u32]) -> usize {
    4 + kind_widths.iter().sum::<u32>() as usize
}

/// Appends the record of an entry whose figures fit their fields.
pub fn write(entry: &Entry, feed: &mut Vec<u8>) {
    let (kind, values) = fields(entry);
    let kind_widths = widths(kind).expect("a kind of the table");
    let mut bits: Vec<bool> = Vec::new();
    let mut put = |value: u32, width: u32| {
        assert!(u64::from(value) < 1 << width, "{entry} does not fit a record");
        bits.extend((0..width).rev().map(|k| value >> k & 1 == 1));
    };
    put(kind, 4);
    for (value, width) in values.iter().zip(kind_widths) {
        put(*value, *width);
    }
    while bits.len() % 8 != 0 {
        bits.push(false);
    }
    for byte in bits.chunks(8) {
        feed.push(byte.iter().fold(0, |sum, bit| sum << 1 | u8::from(*bit)));
    }
}

pub fn write_all(entries: &[Entry]) -> Vec<u8> {
    let mut feed = Vec::new();
    for entry in entries {
        write(entry, &mut feed);
    }
    feed
}

/// The entries of a feed up to its end or its first fault.
pub fn read(feed: &[u8]) -> (Vec<Entry>, Option<Fault>) {
    let mut entries = Vec::new();
    if feed.len() > LONGEST_FEED {
        return (entries, Some(Fault { number: 17, record: 0, bit: 0 }));
    }
    let bit_at = |bit: usize| u32::from(feed[bit / 8] >> (7 - bit % 8) & 1);
    let mut start = 0;
    while start < feed.len() {
        let mut place = start * 8;
        let mut take = |width: u32| {
            let mut value = 0;
            for _ in 0..width {
                value = value << 1 | bit_at(place);
                place += 1;
            }
            value
        };
        let fault = |number: u8, bit: usize| {
            Some(Fault { number, record: entries.len() as u32 + 1, bit: bit as u32 })
        };
        let kind = take(4);
        let Some(kind_widths) = widths(kind) else {
            let told = fault(15, start * 8);
            return (entries, told);
        };
        let bits = record_bits(kind_widths);
        let bytes = bits.div_ceil(8);
        if feed.len() - start < bytes {
            let told = fault(14, start * 8);
            return (entries, told);
        }
        let values: Vec<u32> = kind_widths.iter().map(|width| take(*width)).collect();
        if (start * 8 + bits..(start + bytes) * 8).any(|bit| bit_at(bit) == 1) {
            let told = fault(16, start * 8 + bits);
            return (entries, told);
        }
        entries.push(entry_of(kind, &values));
        start += bytes;
    }
    (entries, None)
}
