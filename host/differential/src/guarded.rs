//! Narrow routines with an access behind ifs that compare its index: what is
//! claimed of such an access holds for a reason, and its proof has to go into
//! the circuits.

use crate::draft::{Draft, Header, MAX_DEPTH, TOP};
use crate::plan::{access, condition, plain, set_to, Index};
use crate::rng::Rng;
use oracle::arithmetic::{holds, signed, RELATIONS};
use oracle::exhaustive::{input_bits, MAX_INPUT_BITS};
use oracle::Routine;
use std::collections::BTreeSet;

/// The most variables of the index's width.
const MAX_WIDE: usize = 4;
/// The most values that are kept away from an access one by one.
const MAX_GUARDS: usize = 6;

/// What the guards take the leftovers for.
#[derive(Clone, Copy, PartialEq, Eq)]
pub enum Taken {
    /// Any numbers, as they are.
    Any,
    /// Zeros: such guards may let others pass.
    Zero,
}

/// A valid routine with accesses, and its bytes.
pub fn draw_guarded(rng: &mut Rng, taken: Taken) -> (Vec<u8>, Routine) {
    loop {
        let bytes = draw_draft(rng, taken).encode();
        let routine = oracle::parse(&bytes).expect("a valid routine");
        if (1..=MAX_INPUT_BITS).contains(&input_bits(&routine)) {
            return (bytes, routine);
        }
    }
}

/// A header of some wide variables, which all have one width, and now and then a
/// narrow one of 1 bit behind them: every bit is an input's, of parameters or
/// not.
fn draw_header(rng: &mut Rng) -> Header {
    let width = rng.pick(&[2, 2, 3, 3, 3, 4, 4, 5]);
    let most = MAX_INPUT_BITS as usize / width;
    let mut widths = vec![width as u8; rng.within(2, most.min(MAX_WIDE))];
    if widths.len() * width < MAX_INPUT_BITS as usize - 1 && rng.chance(50) {
        widths.push(1);
    }
    let half = 1 << (width - 1);
    Header {
        parameters: rng.below(widths.len() + 1) as u8,
        sizes: (0..rng.within(1, 2))
            .map(|_| rng.within(1, half) as u16)
            .collect(),
        widths,
    }
}

/// How many variables are wide. The last of them is what the index is compared
/// with, and the one before it the index.
fn wide(header: &Header) -> u8 {
    header.widths.iter().filter(|&&width| width > 1).count() as u8
}

fn index_of(header: &Header) -> u8 {
    wide(header) - 2
}

fn bound_of(header: &Header) -> u8 {
    wide(header) - 1
}

fn draw_draft(rng: &mut Rng, taken: Taken) -> Draft {
    let mut draft = Draft::new(draw_header(rng));
    let (index, bound) = (index_of(&draft.header), bound_of(&draft.header));
    let commands = compute(rng, &draft.header);
    draft.insert(rng, TOP, commands);
    let array = rng.below(draft.header.sizes.len());
    let mut list = TOP;
    for guard in draw_guards(rng, &draft, array, taken) {
        draft.insert(rng, list, set_to(bound, guard.bound));
        let head = [0x0B, guard.relation as u8, index, bound];
        list = draft.append_if(list, head)[guard.arm];
        draft.extend_spine(list);
    }
    let named = guarded_access(rng, &draft.header, array as u8);
    draft.insert(rng, list, named);
    // Behind the access, for the runs that pass it by.
    if rng.chance(50) {
        let head = condition(rng, &draft.header);
        draft.append_if(TOP, head);
    }
    add_others(rng, &mut draft);
    draft
}

/// Commands that give the index its value, from what the wide variables begin
/// with, the index itself and what it is compared with among them.
fn compute(rng: &mut Rng, header: &Header) -> Vec<u8> {
    let index = index_of(header);
    let mut any = || rng.below(usize::from(wide(header))) as u8;
    let mut commands = vec![0x02, index, any()];
    let (s, t) = (any(), any());
    for _ in 0..rng.pick(&[0, 1, 1, 2, 3]) {
        let operation = rng.pick(&[0x03, 0x04, 0x05, 0x05, 0x0E, 0x0F]);
        let (s, t) = (rng.pick(&[s, index]), rng.pick(&[t, index]));
        commands.extend([operation, index, s, t]);
    }
    commands
}

/// An if that compares the index with a constant, and one of its arms.
struct Guard {
    relation: usize,
    bound: u32,
    arm: usize,
}

impl Guard {
    fn draw(rng: &mut Rng, width: u8) -> Self {
        Guard {
            relation: rng.below(RELATIONS.len()),
            bound: rng.below(1 << width) as u32,
            arm: rng.below(2),
        }
    }

    /// The arm that this index alone does not come to.
    fn excluding(rng: &mut Rng, bound: u32) -> Self {
        let relation = rng.below(2);
        Guard {
            relation,
            bound,
            arm: 1 - relation,
        }
    }

    /// Whether an index comes to the arm.
    fn passes(&self, index: u32, width: u8) -> bool {
        let relation = RELATIONS[self.relation];
        holds(relation, index, self.bound, u32::from(width)) == (self.arm == 0)
    }
}

/// Guards behind which only such indices are left, of those computed, as lie
/// outside the array on one side; now and then any guards.
fn draw_guards(rng: &mut Rng, draft: &Draft, array: usize, taken: Taken) -> Vec<Guard> {
    let (width, size) = (draft.header.widths[0], draft.header.sizes[array]);
    let any = rng.pick(&[0, 1, 1, 2]);
    let mut guards: Vec<Guard> = (0..any).map(|_| Guard::draw(rng, width)).collect();
    let passes = |index: &u32| guards.iter().all(|guard| guard.passes(*index, width));
    let computed = computed(draft, taken);
    let computed: BTreeSet<u32> = computed.into_iter().filter(passes).collect();
    let is_above = rng.chance(70);
    let is_outside = |&&index: &&u32| match signed(index, u32::from(width)) {
        index if is_above => index >= i64::from(size),
        index => index < 0,
    };
    let (outside, others): (Vec<u32>, Vec<u32>) =
        computed.iter().partition(|index| is_outside(index));
    if !outside.is_empty() && others.len() <= MAX_GUARDS && rng.chance(90) {
        guards.extend(others.iter().map(|&index| Guard::excluding(rng, index)));
    }
    guards
}

/// What the index can be where the draft ends, which has no ifs yet and does
/// nothing with a narrow variable.
fn computed(draft: &Draft, taken: Taken) -> BTreeSet<u32> {
    let header = &draft.header;
    let width = u32::from(header.widths[0]);
    let free = match taken {
        Taken::Any => wide(header),
        Taken::Zero => wide(header).min(header.parameters),
    };
    let bytes = draft.encode();
    let index = |list: u32| {
        let word = |k: u8| list >> (u32::from(k) * width) & ((1 << width) - 1);
        let mut inputs: Vec<u32> = (0..free).map(word).collect();
        inputs.resize(header.widths.len(), 0);
        let run = oracle::run(&bytes, &inputs, 32, 32).expect("an accepted list");
        run.values[usize::from(index_of(header))]
    };
    (0..1 << (u32::from(free) * width)).map(index).collect()
}

/// A read goes into the last variable: where that is a narrow one, its word has
/// one bit.
fn guarded_access(rng: &mut Rng, header: &Header, array: u8) -> Vec<u8> {
    let (index, last) = (index_of(header), header.widths.len() as u8 - 1);
    match rng.chance(30) {
        true => vec![0x09, last, array, index],
        false => vec![0x0A, array, index, last],
    }
}

/// Other ifs, accesses and commands anywhere.
fn add_others(rng: &mut Rng, draft: &mut Draft) {
    for _ in 0..rng.pick(&[0, 0, 0, 1, 2]) {
        let list = draft.list_at(rng, 0..=MAX_DEPTH - 1).unwrap_or(TOP);
        let head = condition(rng, &draft.header);
        draft.insert_if(rng, list, head);
    }
    for _ in 0..rng.pick(&[0, 0, 0, 1, 2]) {
        let index = rng.pick(&[Index::Inside, Index::Inside, Index::Any, Index::AsItIs]);
        let commands = access(rng, &draft.header, index);
        let list = draft.any_list(rng);
        draft.insert(rng, list, commands);
    }
    for _ in 0..rng.pick(&[0, 0, 0, 1, 2]) {
        let commands = plain(rng, &draft.header);
        let list = draft.any_list(rng);
        draft.insert(rng, list, commands);
    }
}
