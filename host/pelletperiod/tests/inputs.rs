//! The variables of the input bits, told from the clauses alone, beside those
//! that the oracle gave out.

use differential::plan::Plan;
use differential::rng::Rng;
use differential::survey::Survey;
use oracle::{translate, Counts, Discard};
use pelletperiod::inputs::{by_kind, inputs, list, Name};
use pelletperiod::Claim;

const CASES: u64 = 400;

#[test]
fn inputs_are_told_from_gates() {
    let (mut with_leftovers, mut with_reads, mut with_divisions) = (0, 0, 0);
    for case in 0..CASES {
        let rng = &mut Rng::for_case(43, case);
        let routine = Plan::draw(rng).build(rng).encode();
        let counts = oracle::check(&routine).expect("a valid routine");
        if counts.accesses == 0 {
            continue;
        }
        let claim = Claim {
            routine,
            access: rng.below(counts.accesses) as u8,
            side: rng.below(2) as u8,
            decisions: (0..counts.ifs).map(|_| rng.below(3) as u8).collect(),
        };
        let Claim {
            routine,
            access,
            side,
            decisions,
        } = &claim;
        let expected = translate(routine, *access, *side, decisions, &mut Discard);
        let expected = expected.expect("a valid claim").inputs;
        let translation = claim.translate().expect("a valid claim");
        let found = inputs(&claim, &translation).expect("a valid routine");
        let variables: Vec<Vec<u32>> = found.iter().map(|i| i.variables.clone()).collect();
        assert_eq!(variables, expected);
        let names: Vec<Name> = found.iter().map(|i| i.name).collect();
        assert_eq!(names, names_of(&counts));
        with_leftovers += u32::from(counts.parameters < counts.variables);
        let is_read = |name| matches!(name, Name::Read(_));
        let parsed = oracle::parse(&claim.routine).expect("a valid routine");
        with_divisions += u32::from(!Survey::of(&parsed).divisions.is_empty());
        let mut reads = found.iter().filter(|i| is_read(i.name));
        with_reads += u32::from(reads.any(|i| !i.variables.is_empty()));
    }
    assert!(with_leftovers > 50, "{with_leftovers}");
    assert!(with_reads > 50, "{with_reads}");
    assert!(with_divisions > 50, "{with_divisions}");
}

/// The variables in order, of which the first are parameters, and then the reads.
fn names_of(counts: &Counts) -> Vec<Name> {
    let parameters = (0..counts.parameters).map(Name::Parameter);
    let leftovers = (counts.parameters..counts.variables).map(Name::Leftover);
    let reads = (0..counts.reads).map(Name::Read);
    parameters.chain(leftovers).chain(reads).collect()
}

/// A parameter of 3 bits and a leftover of 4, a read into the latter's variable,
/// an access of which the index is that, and a read behind it.
#[test]
fn lists_are_read_from_models() {
    let header = [1, 2, 3, 4, 1, 1, 8, 0];
    let commands = [9, 1, 0, 0, 10, 0, 1, 0, 9, 1, 0, 0, 0];
    let claim = Claim {
        routine: [&header[..], &commands].concat(),
        access: 1,
        side: 0,
        decisions: Vec::new(),
    };
    let translation = claim.translate().expect("a valid claim");
    let inputs = inputs(&claim, &translation).expect("a valid routine");
    let names: Vec<String> = inputs.iter().map(|input| input.name.to_string()).collect();
    assert_eq!(names, ["parameter 0", "leftover 1", "read 0", "read 1"]);
    assert_eq!(inputs[0].variables, [2, 3, 4]);
    assert_eq!(inputs[1].variables, [5, 6, 7, 8]);
    // Two gates stand before the read's bits: the index is inside, and arrival.
    assert_eq!(inputs[2].variables, [11, 12, 13, 14]);
    assert!(inputs[3].variables.is_empty());
    let mut model = vec![false; translation.variables as usize + 1];
    for variable in [2, 4, 6, 14] {
        model[variable as usize] = true;
    }
    let list = list(&inputs, &model);
    assert_eq!(list, [5, 2, 8, 0]);
    let kinds = by_kind(&claim.routine, &list).expect("a valid routine");
    assert_eq!(kinds, "inputs: parameters 5, leftovers 2, reads 8 0");
}

/// The same routine with none and with all of its variables as parameters.
#[test]
fn kinds_that_there_are_none_of_are_left_out() {
    for (parameters, kinds) in [
        (0, "inputs: leftovers 5 2, reads 8 0"),
        (2, "inputs: parameters 5 2, reads 8 0"),
    ] {
        let header = [1, 2, 3, 4, parameters, 1, 8, 0];
        let commands = [9, 1, 0, 0, 10, 0, 1, 0, 9, 1, 0, 0, 0];
        let routine = [&header[..], &commands].concat();
        assert_eq!(by_kind(&routine, &[5, 2, 8, 0]), Ok(kinds.to_string()));
    }
}
