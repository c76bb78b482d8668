//! The field of 65,521 elements. A value is a `u32` below `P`, so a product of two fits in a `u32`.

use std::sync::LazyLock;

pub const P: u32 = 65_521;

pub fn add(a: u32, b: u32) -> u32 {
    (a + b) % P
}

pub fn sub(a: u32, b: u32) -> u32 {
    (a + P - b) % P
}

pub fn mul(a: u32, b: u32) -> u32 {
    a * b % P
}

/// From a table, since a list of 1,024 words needs one for each.
pub fn inverse(a: u32) -> u32 {
    static INVERSES: LazyLock<Vec<u32>> = LazyLock::new(|| (0..P).map(by_fermat).collect());
    INVERSES[a as usize]
}

/// By Fermat's little theorem; the engine uses Euclid's steps.
fn by_fermat(a: u32) -> u32 {
    let (mut result, mut square, mut exponent) = (1, a, P - 2);
    while exponent > 0 {
        if exponent % 2 == 1 {
            result = mul(result, square);
        }
        square = mul(square, square);
        exponent /= 2;
    }
    result
}
