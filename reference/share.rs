//! The dealer's polynomial F(x, y), and what keepers have of it.

use crate::field::{evaluate, Element};

/// Keepers are numbered from 0.
pub type Keeper = u8;

/// Where a keeper stands.
pub fn point(keeper: Keeper) -> Element {
    Element::from(keeper) + Element::from(1)
}

/// F(x, y): for each power of x the coefficients in y, the lowest first.
/// There is at least one row, and all have the same length, at least one.
#[derive(Clone, Debug)]
pub struct Rows(Vec<Vec<Element>>);

impl Rows {
    pub fn new(rows: Vec<Vec<Element>>) -> Option<Rows> {
        let low = rows.first()?.len();
        (low > 0 && rows.iter().all(|row| row.len() == low)).then_some(Rows(rows))
    }

    /// How many coefficients in x.
    pub fn high(&self) -> usize {
        self.0.len()
    }

    /// How many coefficients in y.
    pub fn low(&self) -> usize {
        self.0.first().map_or(0, Vec::len)
    }

    pub fn iter(&self) -> impl Iterator<Item = &[Element]> {
        self.0.iter().map(Vec::as_slice)
    }

    /// F(x, y) at a given y, a polynomial in x.
    fn across(&self, y: Element) -> Vec<Element> {
        self.iter().map(|row| evaluate(row, y)).collect()
    }

    /// F(x, y) at a given x, a polynomial in y.
    fn down(&self, x: Element) -> Vec<Element> {
        let column = |k: usize| -> Vec<Element> {
            self.iter().filter_map(|row| row.get(k).copied()).collect()
        };
        (0..self.low()).map(|k| evaluate(&column(k), x)).collect()
    }

    pub fn share(&self, keeper: Keeper) -> Share {
        Share {
            across: self.across(point(keeper)),
            down: self.down(point(keeper)),
        }
    }
}

/// A keeper's two polynomials. In a message that somebody made up the
/// numbers may be any, so their type is left open.
#[derive(Clone, Debug, PartialEq, Eq)]
pub struct Share<N = Element> {
    pub across: Vec<N>,
    pub down: Vec<N>,
}

/// Across and down at one point.
#[derive(Clone, Copy, Debug, PartialEq, Eq)]
pub struct Pair<N = Element> {
    pub across: N,
    pub down: N,
}

impl Share {
    pub fn zeros(high: usize, low: usize) -> Share {
        Share {
            across: vec![Element::ZERO; high],
            down: vec![Element::ZERO; low],
        }
    }

    /// What the share gives at a keeper's point.
    pub fn at(&self, keeper: Keeper) -> Pair {
        Pair {
            across: evaluate(&self.across, point(keeper)),
            down: evaluate(&self.down, point(keeper)),
        }
    }

    pub fn value(&self) -> Element {
        evaluate(&self.across, Element::ZERO)
    }

    /// Whether this share, of keeper `own`, agrees with that of another.
    pub fn agrees(&self, own: Keeper, other: Keeper, share: &Share) -> bool {
        self.at(other).fits(&share.at(own))
    }

    pub fn agrees_with_itself(&self, own: Keeper) -> bool {
        self.agrees(own, own, self)
    }
}

impl Pair {
    /// Whether each one's across is the other's down.
    pub fn fits(&self, other: &Pair) -> bool {
        self.across == other.down && self.down == other.across
    }
}
