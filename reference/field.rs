//! Numbers modulo p = 2^61 - 1, and polynomials in one unknown.

use std::fmt;
use std::ops::{Add, Mul};

pub const P: u64 = (1 << 61) - 1;

/// A number below p.
#[derive(Clone, Copy, Debug, PartialEq, Eq)]
pub struct Element(u64);

impl Element {
    pub const ZERO: Element = Element(0);

    /// `None` if the number isn't below p.
    pub fn new(number: u64) -> Option<Element> {
        (number < P).then_some(Element(number))
    }

    fn reduce(number: u128) -> Element {
        Element((number % u128::from(P)) as u64)
    }
}

impl Add for Element {
    type Output = Element;

    fn add(self, other: Element) -> Element {
        Element::reduce(u128::from(self.0) + u128::from(other.0))
    }
}

impl Mul for Element {
    type Output = Element;

    fn mul(self, other: Element) -> Element {
        Element::reduce(u128::from(self.0) * u128::from(other.0))
    }
}

impl From<u8> for Element {
    fn from(number: u8) -> Element {
        Element(u64::from(number))
    }
}

impl From<Element> for u64 {
    fn from(element: Element) -> u64 {
        element.0
    }
}

impl fmt::Display for Element {
    fn fmt(&self, out: &mut fmt::Formatter) -> fmt::Result {
        self.0.fmt(out)
    }
}

/// The polynomial with these coefficients, the lowest first, at a point.
pub fn evaluate(coefficients: &[Element], at: Element) -> Element {
    coefficients
        .iter()
        .rev()
        .fold(Element::ZERO, |sum, &coefficient| sum * at + coefficient)
}
