//! The fast version, folded by hand. 2^61 is 1 modulo P, so a product is congruent to its low 61 bits plus the rest of it.
//! With one factor taken eight times the rest is the high word, and the low 61 bits are the low word without its last three bits, which are 0.

use crate::versions::{P, REFUSED};

/// A number below 2 P, brought below P.
#[inline(always)]
fn once(n: u64) -> u64 {
    if n >= P { n - P } else { n }
}

/// Any word, folded: at most P + 7.
#[inline(always)]
fn fold(n: u64) -> u64 {
    (n & P) + (n >> 61)
}

/// The low 61 bits of a product and the rest of it, for any word and a number below P.
#[inline(always)]
fn parts(n: u64, b: u64) -> (u64, u64) {
    let eightfold = u128::from(n) * u128::from(b << 3);
    (eightfold as u64 >> 3, (eightfold >> 64) as u64)
}

/// The product of two numbers below P.
#[inline(always)]
fn product(a: u64, b: u64) -> u64 {
    let (low, rest) = parts(a, b);
    once(low + rest)
}

#[inline(never)]
pub extern "C" fn multiply(a: u64, b: u64) -> u64 {
    if a >= P || b >= P {
        return REFUSED;
    }
    product(a, b)
}

#[inline(never)]
pub extern "C" fn multiply_chain(a: u64, b: u64, n: u32) -> u64 {
    if a >= P || b >= P {
        return REFUSED;
    }
    let mut result = a;
    for _ in 0..n {
        result = product(result, b);
    }
    result
}

/// By Euclid's extended algorithm in words: there is no product to fold, and no factor passes P. A power by folded products took twice as long.
#[inline(never)]
pub extern "C" fn inverse(a: u64) -> u64 {
    if a >= P {
        return REFUSED;
    }
    if a == 0 {
        return 0;
    }
    let (mut over, mut left) = (P, a);
    let (mut before, mut by) = (0, 1);
    while left != 0 {
        let quotient = over / left;
        (over, left) = (left, over - quotient * left);
        (before, by) = (by, before - quotient as i64 * by);
    }
    if before < 0 {
        P - before.unsigned_abs()
    } else {
        before as u64
    }
}

/// By Horner's rule, with the sums brought below P only at the end. A step takes a sum below k 2^61 to one below (k + 2) 2^61, so after three steps, at 7, it still fits a word and is folded once.
#[inline(never)]
pub extern "C" fn evaluate(c0: u64, c1: u64, c2: u64, c3: u64, c4: u64, c5: u64, x: u64) -> u64 {
    if [c0, c1, c2, c3, c4, c5, x].iter().any(|&n| n >= P) {
        return REFUSED;
    }
    let step = |sum: u64, c: u64| {
        let (low, rest) = parts(sum, x);
        low + (rest + c)
    };
    let upper = fold(step(step(step(c5, c4), c3), c2));
    once(fold(step(step(upper, c1), c0)))
}
