//! Exact fractions for the limits: nothing is rounded before the end.
use std::cmp::Ordering;

/// A fraction with a denominator above 0.
#[derive(Clone, Copy, Debug)]
pub struct Exact {
    over: i128,
    under: i128,
}

impl Exact {
    pub fn whole(value: u32) -> Exact {
        Exact { over: value.into(), under: 1 }
    }

    pub fn part(over: i128, under: i128) -> Exact {
        assert!(under > 0);
        Exact { over, under }
    }

    pub fn plus(self, other: Exact) -> Exact {
        let over = self.over * other.under + other.over * self.under;
        Exact { over, under: self.under * other.under }
    }

    pub fn minus(self, other: Exact) -> Exact {
        let over = self.over * other.under - other.over * self.under;
        Exact { over, under: self.under * other.under }
    }

    pub fn times(self, other: Exact) -> Exact {
        Exact { over: self.over * other.over, under: self.under * other.under }
    }

    pub fn order(self, other: Exact) -> Ordering {
        (self.over * other.under).cmp(&(other.over * self.under))
    }

    pub fn below(self, other: Exact) -> bool {
        self.order(other) == Ordering::Less
    }

    pub fn smaller(self, other: Exact) -> Exact {
        if other.below(self) { other } else { self }
    }

    pub fn larger(self, other: Exact) -> Exact {
        if self.below(other) { other } else { self }
    }

    /// The greatest whole number that is not above this one.
    pub fn floor(self) -> i128 {
        self.over.div_euclid(self.under)
    }

    /// The least whole number that is not below this one.
    pub fn ceil(self) -> i128 {
        -(-self.over).div_euclid(self.under)
    }
}
