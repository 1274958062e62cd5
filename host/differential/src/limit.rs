//! Routines whose translation takes a given number of words, many millions of
//! them, made of 32-bit products, sums and decided ifs.

/// What the clause {2} and the last two clauses take.
const FRAME: usize = 6;
const AND: usize = 10;
const XOR: usize = 16;
const MAJORITY: usize = 24;
/// One bit of an adder.
const ADDER_BIT: usize = 2 * XOR + MAJORITY;
/// A product of width 32: 32 rows, the k-th of 32 - k gates, each row added.
const PRODUCT: usize = (32 * 33 / 2) * AND + 32 * 32 * ADDER_BIT;
/// A decided if on two 1-bit variables with empty arms: the equality's two
/// gates, one arm's arrival and the arrival after it.
const DECIDED_IF: usize = XOR + 3 * AND;

/// A routine and the decisions with which its access 0, side 0, is translated
/// into exactly so many words: an even number, as every one is, and at least
/// twice what a product takes.
pub fn routine_of(words: usize) -> (Vec<u8>, Vec<u8>) {
    let rest = words - FRAME;
    let products = rest / PRODUCT - 1;
    let rest = rest - products * PRODUCT;
    // The ifs take what adder bits alone would not hit: of fewer than 28 of
    // them one leaves a multiple, whatever even number it is.
    let ifs = (0..28)
        .find(|ifs| (rest - ifs * DECIDED_IF) % ADDER_BIT == 0)
        .expect("an even number of words");
    let bits = (rest - ifs * DECIDED_IF) / ADDER_BIT;
    (encode(products, bits, ifs), vec![0; ifs])
}

/// Variables 0 to 2, all parameters, have 32 bits, as many as adder bits remain,
/// and one bit. The last is the index, so that runs stop where it is 1.
fn encode(products: usize, bits: usize, ifs: usize) -> Vec<u8> {
    let (sums, remaining) = (bits / 32, (bits % 32) as u8);
    let mut bytes = vec![1, 3, 32, remaining.max(1), 1, 3, 1, 1, 0];
    bytes.extend([0x05, 0, 0, 0].repeat(products));
    bytes.extend([0x03, 0, 0, 0].repeat(sums));
    if remaining > 0 {
        bytes.extend([0x03, 1, 1, 1]);
    }
    bytes.extend([0x0B, 0, 2, 2, 0x0C, 0x0D].repeat(ifs));
    bytes.extend([0x0A, 0, 2, 0, 0x00]);
    bytes
}

#[cfg(test)]
mod tests {
    use super::*;

    #[test]
    fn words_are_as_many_as_asked_for() {
        for words in (4 * PRODUCT - 1000..4 * PRODUCT + 1000).step_by(2) {
            let (routine, decisions) = routine_of(words);
            let translation = oracle::measure(&routine, 0, 0, &decisions).expect("accepted");
            assert_eq!(translation.words, words);
        }
    }
}
