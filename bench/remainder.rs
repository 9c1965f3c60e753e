//! The plain version: products and sums of 128 bits, and `%`.

use crate::versions::{P, REFUSED};

#[inline(always)]
fn product(a: u64, b: u64) -> u64 {
    (u128::from(a) * u128::from(b) % u128::from(P)) as u64
}

#[inline(never)]
pub extern "C" fn multiply(a: u64, b: u64) -> u64 {
    if a >= P || b >= P {
        return REFUSED;
    }
    product(a, b)
}

#[inline(never)]
pub extern "C" fn multiply_chain(a: u64, b: u64, n: u32) -> u64 {
    if a >= P || b >= P {
        return REFUSED;
    }
    let mut result = a;
    for _ in 0..n {
        result = product(result, b);
    }
    result
}

/// By Euclid's extended algorithm, in signed numbers of 128 bits.
#[inline(never)]
pub extern "C" fn inverse(a: u64) -> u64 {
    if a >= P {
        return REFUSED;
    }
    if a == 0 {
        return 0;
    }
    let (mut over, mut left) = (i128::from(P), i128::from(a));
    let (mut before, mut by) = (0, 1);
    while left != 0 {
        let quotient = over / left;
        (over, left) = (left, over - quotient * left);
        (before, by) = (by, before - quotient * by);
    }
    before.rem_euclid(i128::from(P)) as u64
}

#[inline(never)]
pub extern "C" fn evaluate(c0: u64, c1: u64, c2: u64, c3: u64, c4: u64, c5: u64, x: u64) -> u64 {
    if [c0, c1, c2, c3, c4, c5, x].iter().any(|&n| n >= P) {
        return REFUSED;
    }
    let mut sum = 0;
    for c in [c5, c4, c3, c2, c1, c0] {
        sum = ((u128::from(c) + u128::from(x) * u128::from(sum)) % u128::from(P)) as u64;
    }
    sum
}
