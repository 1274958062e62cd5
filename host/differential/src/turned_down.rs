//! Routines and leads that are turned down before any buffer is looked at, each
//! with later refusals in waiting and with its number and place written out. A
//! translation and the telling of its space answer alike to them, whatever the
//! oracle says.

pub struct TurnedDown {
    pub routine: Vec<u8>,
    pub access: u8,
    pub side: u8,
    pub decisions: Vec<u8>,
    pub number: u8,
    pub place: u64,
}

/// Each refusal from 1 to 8, then 11 and 12.
pub fn turned_down() -> Vec<TurnedDown> {
    let mut all = Vec::new();
    for (routine, number, place) in routines() {
        all.push(TurnedDown {
            routine,
            access: 9,
            side: 9,
            decisions: vec![9; 40],
            number,
            place,
        });
    }
    for (routine, (access, side, decisions), number, place) in leads() {
        all.push(TurnedDown {
            routine: routine.to_vec(),
            access,
            side,
            decisions: decisions.to_vec(),
            number,
            place,
        });
    }
    all
}

/// Routines, whatever the lead, with their numbers and places.
fn routines() -> Vec<(Vec<u8>, u8, u64)> {
    let mut routines = vec![
        (vec![0; 4097], 1, 0),
        (header_and(&[0x02, 0, 0].repeat(1364)), 1, 0),
    ];
    for &(bytes, number, place) in SHORT_ROUTINES {
        routines.push((bytes.to_vec(), number, place));
    }
    // Nine ifs inside one another, of which the last may be the 33rd as well.
    let (head, empty) = ([0x0B, 0, 0, 0], [0x0B, 0, 0, 0, 0x0C, 0x0D]);
    routines.push((header_and(&head.repeat(9)), 6, 7 + 8 * 4));
    let deep = [empty.repeat(24), head.repeat(9)].concat();
    routines.push((header_and(&deep), 6, 7 + 24 * 6 + 8 * 4));
    routines.push((header_and(&empty.repeat(33)), 7, 7 + 32 * 6));
    for code in [0x09, 0x0A] {
        let accesses = [code, 0, 0, 0].repeat(65);
        routines.push((header_and(&accesses), 7, 7 + 64 * 4));
    }
    routines
}

/// One 8-bit variable and an array of 1; the commands begin at offset 7.
fn header_and(commands: &[u8]) -> Vec<u8> {
    [&[1, 1, 8, 0, 1, 1, 0], commands].concat()
}

const SHORT_ROUTINES: &[(&[u8], u8, u64)] = &[
    (&[], 1, 0),
    (&[0], 2, 0),
    (&[1], 2, 1),
    (&[1, 0, 0], 2, 1),
    (&[1, 33, 33], 2, 1),
    (&[1, 3, 0x21], 2, 2),
    (&[1, 2, 8], 2, 3),
    (&[1, 1, 8, 2, 17, 0], 2, 3),
    (&[1, 1, 8, 0, 17], 2, 4),
    (&[1, 1, 8, 0, 1, 0x64], 2, 5),
    (&[1, 1, 8, 0, 1, 0, 0, 0], 2, 5),
    (&[1, 1, 8, 0, 2, 0, 16, 1, 16, 0], 2, 7),
    (&[1, 1, 8, 0, 0], 3, 5),
    (&[1, 1, 8, 0, 0, 0xFF, 0, 0, 0, 0], 3, 5),
    (&[1, 1, 8, 0, 0, 0x02, 9], 3, 5),
    (&[1, 1, 8, 0, 0, 0x0E, 9, 9], 3, 5),
    (&[1, 1, 8, 0, 0, 0x02, 0, 0], 3, 8),
    (&[1, 1, 8, 0, 0, 0x0B, 0, 0, 0], 3, 9),
    (&[1, 1, 8, 0, 0, 0x01, 0, 0, 1, 0, 0, 0], 4, 5),
    (&[1, 1, 8, 0, 0, 0x0A, 0, 0, 0, 0], 4, 5),
    (&[1, 2, 8, 4, 0, 0, 0x0F, 0, 1, 2, 0], 4, 6),
    (&[1, 1, 8, 0, 0, 0x0B, 10, 0, 0, 0x0C, 0x0D, 0], 4, 5),
    (&[1, 2, 8, 4, 0, 0, 0x02, 0, 1, 0], 5, 6),
    (&[1, 2, 8, 4, 0, 0, 0x06, 0, 1, 0], 5, 6),
    (&[1, 2, 8, 4, 0, 0, 0x08, 1, 0, 0], 5, 6),
    (&[1, 2, 8, 4, 0, 0, 0x0E, 0, 0, 1, 0], 5, 6),
    (&[1, 1, 8, 0, 0, 0x0C, 0], 6, 5),
    (&[1, 1, 8, 0, 0, 0x0D, 0], 6, 5),
    (&[1, 1, 8, 0, 0, 0x0B, 0, 0, 0, 0x00], 6, 9),
    (&[1, 1, 8, 0, 0, 0x0B, 0, 0, 0, 0x0D, 0], 6, 9),
    (&[1, 1, 8, 0, 0, 0x0B, 0, 0, 0, 0x0C, 0x0C], 6, 10),
    (&[1, 1, 8, 0, 0, 0x00, 0x00], 8, 6),
    (&[1, 1, 8, 0, 0, 0x02, 0, 0, 0x00, 0xFF], 8, 9),
];

/// One if and one access behind it.
pub const IF_AND_ACCESS: &[u8] = &[
    1, 1, 8, 1, 1, 4, 0, 0x0B, 0, 0, 0, 0x0C, 0x0D, 0x0A, 0, 0, 0, 0,
];
/// One access and two ifs behind it.
const ACCESS_AND_IFS: &[u8] = &[
    1, 1, 8, 1, 1, 4, 0, 0x0A, 0, 0, 0, 0x0B, 0, 0, 0, 0x0C, 0x0D, 0x0B, 0, 0, 0, 0x0C, 0x0D, 0,
];
/// Nothing but the end.
const NO_ACCESS: &[u8] = &[1, 1, 8, 0, 0, 0];

type Lead = (u8, u8, &'static [u8]);

/// Routines that are accepted, leads on them that are not, their numbers and
/// places.
fn leads() -> Vec<(&'static [u8], Lead, u8, u64)> {
    vec![
        (IF_AND_ACCESS, (9, 9, &[]), 11, 0),
        (IF_AND_ACCESS, (9, 9, &[9, 9]), 11, 2),
        (NO_ACCESS, (9, 9, &[9]), 11, 1),
        (IF_AND_ACCESS, (1, 9, &[9]), 12, 0),
        (IF_AND_ACCESS, (255, 9, &[9]), 12, 0),
        // Without accesses no access is in range.
        (NO_ACCESS, (0, 9, &[]), 12, 0),
        (IF_AND_ACCESS, (0, 2, &[9]), 12, 1),
        (IF_AND_ACCESS, (0, 255, &[9]), 12, 1),
        (IF_AND_ACCESS, (0, 1, &[3]), 12, 2),
        // Decisions behind the access are looked at as well.
        (ACCESS_AND_IFS, (0, 1, &[255, 3]), 12, 2),
        (ACCESS_AND_IFS, (0, 1, &[2, 3]), 12, 3),
    ]
}

#[cfg(test)]
mod tests {
    use super::*;
    use std::collections::BTreeSet;

    #[test]
    fn each_number_is_there() {
        let numbers: BTreeSet<u8> = turned_down().iter().map(|case| case.number).collect();
        assert_eq!(numbers, (1..=8).chain([11, 12]).collect());
    }
}
