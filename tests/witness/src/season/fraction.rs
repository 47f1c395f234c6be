//! Fractions in lowest terms.

use std::fmt;

#[derive(Clone, Copy, Debug, PartialEq, Eq)]
pub struct Fraction {
    pub over: u64,
    pub under: u64,
}

impl Fraction {
    /// "A process with no such call gets 0 over 0."
    pub fn lowest(over: u64, under: u64) -> Fraction {
        if under == 0 {
            return Fraction { over: 0, under: 0 };
        }
        let common = gcd(over, under);
        Fraction {
            over: over / common,
            under: under / common,
        }
    }
}

/// By halving and subtracting; `b` is not 0.
fn gcd(mut a: u64, mut b: u64) -> u64 {
    if a == 0 {
        return b;
    }
    let twos = (a | b).trailing_zeros();
    a >>= a.trailing_zeros();
    while b != 0 {
        b >>= b.trailing_zeros();
        if a > b {
            (a, b) = (b, a);
        }
        b -= a;
    }
    a << twos
}

impl fmt::Display for Fraction {
    fn fmt(&self, f: &mut fmt::Formatter<'_>) -> fmt::Result {
        write!(f, "{}/{}", self.over, self.under)
    }
}
