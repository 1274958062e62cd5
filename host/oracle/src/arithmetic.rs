//! Fixed-width arithmetic. A value of width `w` is a number below 2 to `w`,
//! kept in a `u32`; every operation is done in 64 bits, where nothing is lost,
//! and then reduced.

/// The five operations on two values of one width.
#[derive(Clone, Copy, Debug, PartialEq, Eq)]
pub enum Operation {
    Add,
    Subtract,
    Multiply,
    Quotient,
    Remainder,
}

/// The three changes of width.
#[derive(Clone, Copy, Debug, PartialEq, Eq)]
pub enum Resize {
    Cut,
    ZeroExtend,
    SignExtend,
}

/// The ten relations.
#[derive(Clone, Copy, Debug, PartialEq, Eq)]
pub enum Relation {
    Equal,
    NotEqual,
    LessUnsigned,
    LessEqualUnsigned,
    GreaterUnsigned,
    GreaterEqualUnsigned,
    LessSigned,
    LessEqualSigned,
    GreaterSigned,
    GreaterEqualSigned,
}

/// The relations by their numbers, 0 to 9.
pub const RELATIONS: [Relation; 10] = [
    Relation::Equal,
    Relation::NotEqual,
    Relation::LessUnsigned,
    Relation::LessEqualUnsigned,
    Relation::GreaterUnsigned,
    Relation::GreaterEqualUnsigned,
    Relation::LessSigned,
    Relation::LessEqualSigned,
    Relation::GreaterSigned,
    Relation::GreaterEqualSigned,
];

/// 2 to the width: the first number that a variable of this width cannot hold.
pub fn modulus(width: u32) -> u64 {
    1 << width
}

/// The value read as a two's complement number of its width.
pub fn signed(value: u32, width: u32) -> i64 {
    let value = i64::from(value);
    let half = 1_i64 << (width - 1);
    if value < half {
        value
    } else {
        value - 2 * half
    }
}

/// The result modulo 2 to the width. By zero the quotient is all ones and the
/// remainder the dividend, as in SMT-LIB.
pub fn operate(operation: Operation, a: u32, b: u32, width: u32) -> u32 {
    let (a, b, modulus) = (u64::from(a), u64::from(b), modulus(width));
    let exact = match operation {
        Operation::Add => a + b,
        // One modulus more, so that the difference stays a natural number.
        Operation::Subtract => a + modulus - b,
        Operation::Multiply => a * b,
        Operation::Quotient => a.checked_div(b).unwrap_or(modulus - 1),
        Operation::Remainder => a.checked_rem(b).unwrap_or(a),
    };
    reduce(exact, width)
}

/// The value of width `from` in width `to`.
pub fn resize(kind: Resize, value: u32, from: u32, to: u32) -> u32 {
    match kind {
        Resize::Cut => reduce(u64::from(value), to),
        Resize::ZeroExtend => value,
        Resize::SignExtend => {
            let wide = signed(value, from).rem_euclid(1_i64 << to);
            u32::try_from(wide).expect("a remainder by at most 2 to 32")
        }
    }
}

/// Whether the relation holds between two values of this width.
pub fn holds(relation: Relation, a: u32, b: u32, width: u32) -> bool {
    let (x, y) = (signed(a, width), signed(b, width));
    match relation {
        Relation::Equal => a == b,
        Relation::NotEqual => a != b,
        Relation::LessUnsigned => a < b,
        Relation::LessEqualUnsigned => a <= b,
        Relation::GreaterUnsigned => a > b,
        Relation::GreaterEqualUnsigned => a >= b,
        Relation::LessSigned => x < y,
        Relation::LessEqualSigned => x <= y,
        Relation::GreaterSigned => x > y,
        Relation::GreaterEqualSigned => x >= y,
    }
}

fn reduce(value: u64, width: u32) -> u32 {
    u32::try_from(value % modulus(width)).expect("a width is at most 32")
}

#[cfg(test)]
mod tests {
    use super::*;

    #[test]
    fn worked_examples() {
        assert_eq!(operate(Operation::Add, 200, 100, 8), 44);
        assert_eq!(operate(Operation::Subtract, 0, 1, 8), 255);
        assert_eq!(operate(Operation::Multiply, 16, 16, 8), 0);
        assert_eq!(resize(Resize::SignExtend, 8, 4, 8), 248);
        assert_eq!(resize(Resize::Cut, 500, 9, 8), 244);
        assert!(holds(Relation::LessSigned, 128, 127, 8));
        assert!(!holds(Relation::LessUnsigned, 128, 127, 8));
    }

    #[test]
    fn signed_reading_at_the_ends_of_a_width() {
        assert_eq!(signed(0, 1), 0);
        assert_eq!(signed(1, 1), -1);
        assert_eq!(signed(127, 8), 127);
        assert_eq!(signed(128, 8), -128);
        assert_eq!(signed(0x7FFF_FFFF, 32), 2_147_483_647);
        assert_eq!(signed(0x8000_0000, 32), -2_147_483_648);
        assert_eq!(signed(0xFFFF_FFFF, 32), -1);
    }

    #[test]
    fn operations_at_full_width() {
        let top = u32::MAX;
        assert_eq!(operate(Operation::Add, top, top, 32), top - 1);
        assert_eq!(operate(Operation::Subtract, 0, top, 32), 1);
        assert_eq!(operate(Operation::Multiply, top, top, 32), 1);
        assert_eq!(resize(Resize::SignExtend, 1, 1, 32), top);
        assert_eq!(resize(Resize::ZeroExtend, 1, 1, 32), 1);
    }

    #[test]
    fn division_at_full_width() {
        let top = u32::MAX;
        assert_eq!(operate(Operation::Quotient, top, 1, 32), top);
        assert_eq!(operate(Operation::Remainder, top, 1, 32), 0);
        assert_eq!(operate(Operation::Quotient, top - 1, top, 32), 0);
        assert_eq!(operate(Operation::Remainder, top - 1, top, 32), top - 1);
    }

    #[test]
    fn dividing_by_zero() {
        for width in 1..=32 {
            let most = (modulus(width) - 1) as u32;
            for dividend in [0, 1, most] {
                assert_eq!(operate(Operation::Quotient, dividend, 0, width), most);
                assert_eq!(operate(Operation::Remainder, dividend, 0, width), dividend);
            }
        }
    }

    #[test]
    fn subtracting_zero_changes_nothing() {
        for width in 1..=32 {
            assert_eq!(operate(Operation::Subtract, 1, 0, width), 1);
        }
    }
}
