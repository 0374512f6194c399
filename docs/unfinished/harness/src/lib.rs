//! A test harness for the boundary of the engine: an independent engine, random jobs, and their comparison.
pub mod boundary;
pub mod compare;
pub mod coverage;
pub mod documents;
pub mod entries;
pub mod exact;
pub mod expected;
pub mod feed;
pub mod generate;
pub mod job;
pub mod misuses;
pub mod random;
pub mod reference;
pub mod shrink;
