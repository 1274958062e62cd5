//! The clauses of the gates as words, each a count and its literals. A literal's
//! opposite differs in the lowest bit.

#[inline(always)]
pub fn and(g: u32, a: u32, b: u32) -> [u32; 10] {
    [2, g ^ 1, a, 2, g ^ 1, b, 3, g, a ^ 1, b ^ 1]
}

#[inline(always)]
pub fn xor(g: u32, a: u32, b: u32) -> [u32; 16] {
    let (h, c, d) = (g ^ 1, a ^ 1, b ^ 1);
    [3, h, a, b, 3, h, c, d, 3, g, c, b, 3, g, a, d]
}

#[inline(always)]
pub fn majority(g: u32, a: u32, b: u32, c: u32) -> [u32; 24] {
    let (h, na, nb, nc) = (g ^ 1, a ^ 1, b ^ 1, c ^ 1);
    [
        3, na, nb, g, 3, na, nc, g, 3, nb, nc, g, 3, a, b, h, 3, a, c, h, 3, b, c, h,
    ]
}

#[inline(always)]
pub fn mux(g: u32, c: u32, a: u32, b: u32) -> [u32; 16] {
    let (h, d) = (g ^ 1, c ^ 1);
    [3, d, a ^ 1, g, 3, d, a, h, 3, c, b ^ 1, g, 3, c, b, h]
}
