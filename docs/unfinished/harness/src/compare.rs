//! One job, sent through the boundary and compared byte for byte with what the reference engine expects.
use crate::boundary;
use crate::expected::{self, OUTPUT_TOO_SHORT};

/// What untouched output bytes hold.
const FILL: u8 = 0xA5;
const ROOM_BEHIND: usize = 7;

/// What was wrong with an answer of the boundary.
pub enum Difference {
    Result { expected: i64, found: i64 },
    Byte { at: usize, expected: u8, found: u8 },
    Touched { at: usize },
}

/// Compares the answer to the bytes of a job. The expected number of bytes, or negative result, if all is alike.
pub fn check(job: &[u8]) -> Result<i64, Difference> {
    let told = expected::replay(job);
    let (result, bytes) = match &told {
        Ok(bytes) => (bytes.len() as i64, bytes.as_slice()),
        Err(result) => (*result, &[][..]),
    };
    let room = if result < 0 { 64 } else { bytes.len() + ROOM_BEHIND };
    let mut out = vec![FILL; room];
    same_result(result, boundary::replay(job, &mut out))?;
    for (at, expected) in bytes.iter().enumerate() {
        if out[at] != *expected {
            return Err(Difference::Byte { at, expected: *expected, found: out[at] });
        }
    }
    untouched(&out, bytes.len())?;
    Ok(result)
}

/// Compares the length that the boundary tells, and its answers to outputs that are just long enough and too short.
pub fn check_lengths(job: &[u8]) -> Result<(), Difference> {
    let told = expected::replay(job);
    let result = told.as_ref().map_or_else(|result| *result, |bytes| bytes.len() as i64);
    same_result(result, boundary::length(job))?;
    if let Ok(bytes) = told {
        let mut out = vec![FILL; bytes.len()];
        same_result(result, boundary::replay(job, &mut out))?;
        for short in [0, bytes.len() / 2, bytes.len().saturating_sub(1)] {
            if short < bytes.len() {
                let mut out = vec![FILL; short];
                same_result(OUTPUT_TOO_SHORT, boundary::replay(job, &mut out))?;
                untouched(&out, 0)?;
            }
        }
    }
    Ok(())
}

fn same_result(expected: i64, found: i64) -> Result<(), Difference> {
    if expected == found { Ok(()) } else { Err(Difference::Result { expected, found }) }
}

fn untouched(out: &[u8], from: usize) -> Result<(), Difference> {
    match (from..out.len()).find(|at| out[*at] != FILL) {
        Some(at) => Err(Difference::Touched { at }),
        None => Ok(()),
    }
}

impl std::fmt::Display for Difference {
    fn fmt(&self, f: &mut std::fmt::Formatter) -> std::fmt::Result {
        match self {
            Difference::Result { expected, found } => {
                write!(f, "the result should be {expected} and is {found}")
            }
            Difference::Byte { at, expected, found } => {
                write!(f, "output byte {at} should be {expected} and is {found}")
            }
            Difference::Touched { at } => write!(f, "output byte {at} should be untouched"),
        }
    }
}
