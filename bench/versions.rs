//! The three versions that are compared. Each has the same four functions, called in the same way: none is inlined, and each refuses a number that is not below P.

use crate::{folded, remainder};

/// 2^61 - 1, the prime.
pub const P: u64 = (1 << 61) - 1;

/// The answer where a number is not below P.
pub const REFUSED: u64 = u64::MAX;

/// Six coefficients, the lowest first, and the point to evaluate at.
pub type Seven = [u64; 7];

#[derive(Clone, Copy)]
pub struct Version {
    pub name: &'static str,
    pub multiply: extern "C" fn(u64, u64) -> u64,
    pub multiply_chain: extern "C" fn(u64, u64, u32) -> u64,
    pub inverse: extern "C" fn(u64) -> u64,
    evaluate: extern "C" fn(u64, u64, u64, u64, u64, u64, u64) -> u64,
}

impl Version {
    pub const ALL: [Version; 3] = [Version::OURS, Version::REMAINDER, Version::FOLDED];

    /// The proved functions, from the static library.
    pub const OURS: Version = Version {
        name: "ours",
        multiply: vochapir_multiply,
        multiply_chain: vochapir_multiply_chain,
        inverse: vochapir_inverse,
        evaluate: vochapir_evaluate,
    };

    pub const REMAINDER: Version = Version {
        name: "remainder",
        multiply: remainder::multiply,
        multiply_chain: remainder::multiply_chain,
        inverse: remainder::inverse,
        evaluate: remainder::evaluate,
    };

    pub const FOLDED: Version = Version {
        name: "folded",
        multiply: folded::multiply,
        multiply_chain: folded::multiply_chain,
        inverse: folded::inverse,
        evaluate: folded::evaluate,
    };

    pub fn named(name: &str) -> Option<Version> {
        Version::ALL.into_iter().find(|v| v.name == name)
    }

    #[inline(always)]
    pub fn evaluate(&self, [c0, c1, c2, c3, c4, c5, x]: Seven) -> u64 {
        (self.evaluate)(c0, c1, c2, c3, c4, c5, x)
    }
}

// Each takes any numbers and reads and writes no memory of the caller's, so a call is safe.
unsafe extern "C" {
    safe fn vochapir_multiply(a: u64, b: u64) -> u64;
    safe fn vochapir_multiply_chain(a: u64, b: u64, n: u32) -> u64;
    safe fn vochapir_inverse(a: u64) -> u64;
    safe fn vochapir_evaluate(c0: u64, c1: u64, c2: u64, c3: u64, c4: u64, c5: u64, x: u64) -> u64;
}
