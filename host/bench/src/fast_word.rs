//! Words of a width from 1 to 32.

/// For each width the word of all ones.
static ONES: [u32; 256] = ones();

const fn ones() -> [u32; 256] {
    let mut ones = [0; 256];
    let mut width = 1;
    while width <= 32 {
        ones[width] = u32::MAX >> (32 - width);
        width += 1;
    }
    ones
}

/// The word modulo 2 to the width.
#[inline]
pub fn reduce(x: u32, width: u8) -> u32 {
    x & ONES[width as usize]
}

/// The quotient and the remainder. Where the divisor is 0, all ones, of which the
/// width leaves as many as it has, and the dividend.
#[inline]
pub fn divided(a: u32, b: u32) -> (u32, u32) {
    if b == 0 {
        (u32::MAX, a)
    } else {
        (a / b, a % b)
    }
}

/// As a two's complement number.
#[inline]
pub fn signed(x: u32, width: u8) -> i32 {
    aligned(x, width) >> (32 - width)
}

/// With its top bit as the sign: the order is that of the signed readings.
#[inline]
fn aligned(x: u32, width: u8) -> i32 {
    (x << (32 - width)) as i32
}

#[inline]
pub fn sign_extended(x: u32, to: u8, from: u8) -> u32 {
    reduce(signed(x, from) as u32, to)
}

#[inline]
pub fn holds(relation: u8, a: u32, b: u32, width: u8) -> bool {
    let (x, y) = (aligned(a, width), aligned(b, width));
    match relation {
        0 => a == b,
        1 => a != b,
        2 => a < b,
        3 => a <= b,
        4 => a > b,
        5 => a >= b,
        6 => x < y,
        7 => x <= y,
        8 => x > y,
        _ => x >= y,
    }
}
