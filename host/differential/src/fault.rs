//! Damage that aims at one of the refusals 1 to 8. What a damaged routine is
//! then refused for is the oracle's to say, not assumed here.

use crate::damage::{append, damage_once, Text};
use crate::draft::{Draft, Header, MAX_ACCESSES, MAX_BYTES, MAX_DEPTH, MAX_IFS, TOP};
use crate::plan::{condition, equal, plain, set_to, Plan, OPERATIONS};
use crate::rng::Rng;

/// The numbers that can be aimed at.
pub const AIMS: std::ops::RangeInclusive<usize> = 1..=8;

/// A routine with a fault that aims at this refusal, now and then with a
/// second fault, so that the order of the refusals matters.
pub fn faulty(rng: &mut Rng, aim: usize) -> Text {
    let mut text = match aim {
        1 => length(rng),
        2 => header(rng),
        3 => command(rng),
        4..=6 => inserted(rng, aim),
        7 => too_many(rng),
        8 => trailing(rng),
        _ => unreachable!("no such aim"),
    };
    if rng.chance(15) {
        damage_once(rng, &mut text);
    }
    text
}

fn valid(rng: &mut Rng) -> Draft {
    Plan::draw(rng).build(rng)
}

/// Empty, or longer than the longest routine, however good it looks.
fn length(rng: &mut Rng) -> Text {
    let mut text = Text::new(valid(rng).encode());
    if rng.chance(30) {
        text.truncate(0);
        return text;
    }
    let len = rng.pick(&[4097, 4098, 4352, 5000, 8192]);
    match rng.below(3) {
        0 => text.bytes = vec![0; len],
        1 => text.bytes.resize(len, 0),
        _ => text.bytes.resize_with(len, || rng.byte()),
    }
    text
}

/// A header field with a wrong value, a header that is cut, or both.
fn header(rng: &mut Rng) -> Text {
    let draft = valid(rng);
    let mut text = Text::new(draft.encode());
    let aim = rng.below(3);
    if aim < 2 {
        spoil_header(rng, &draft.header, &mut text.bytes);
    }
    if aim > 0 {
        let len = rng.within(1, draft.header.byte_len() - 1);
        text.truncate(len);
    }
    text
}

fn spoil_header(rng: &mut Rng, header: &Header, bytes: &mut [u8]) {
    let variables = header.widths.len();
    let arrays = header.sizes.len();
    match rng.below(6) {
        0 => bytes[0] = rng.pick(&[0, 2, 0x81, 255]),
        1 => bytes[1] = rng.pick(&[0, 33, 34, 255]),
        2 => bytes[2 + rng.below(variables)] = rng.pick(&[0, 33, 64, 255]),
        3 => bytes[2 + variables] = rng.pick(&[variables as u8 + 1, 33, 255]),
        4 => bytes[3 + variables] = rng.pick(&[17, 18, 32, 255]),
        _ if arrays > 0 => {
            let at = 4 + variables + 2 * rng.below(arrays);
            let size: u16 = rng.pick(&[0, 4097, 4352, 8192, u16::MAX]);
            bytes[at..at + 2].copy_from_slice(&size.to_le_bytes());
        }
        _ => bytes[1] = 0,
    }
}

/// An unknown command, a command cut inside its operands, or the routine cut
/// anywhere behind its header.
fn command(rng: &mut Rng) -> Text {
    let mut draft = valid(rng);
    match rng.below(4) {
        0 => {
            let unknown = rng.pick(&[0x10, 0x10, 0x11, 0x80, 0xFF]);
            let list = draft.any_list(rng);
            draft.insert(rng, list, vec![unknown]);
            Text::new(draft.encode())
        }
        1 => cut_command(rng, &draft),
        _ => {
            let mut text = Text::new(draft.encode());
            let (shortest, longest) = (draft.header.byte_len(), text.bytes.len() - 1);
            let len = match rng.below(4) {
                0 => longest,
                1 => shortest,
                _ => rng.within(shortest, longest),
            };
            text.truncate(len);
            text
        }
    }
}

/// A cut command in place of the end. The operands that are there are often
/// out of range; those that are not lie behind the length, and so does an end.
fn cut_command(rng: &mut Rng, draft: &Draft) -> Text {
    let mut text = Text::new(draft.encode());
    text.bytes.pop();
    let code = rng.pick(&WITH_OPERANDS);
    let count = if code == 0x01 {
        5
    } else {
        operands(code).len()
    };
    let kept = text.bytes.len() + 1 + rng.below(count);
    text.bytes.push(code);
    for _ in 0..count {
        text.bytes.push(rng.pick(&[0, 0, 1, 0x20, 0xFF]));
    }
    text.bytes.push(0x00);
    text.truncate(kept);
    text
}

/// One command that is wrong in itself or stands in the wrong place, put
/// anywhere into a valid routine.
fn inserted(rng: &mut Rng, aim: usize) -> Text {
    let mut plan = Plan::draw(rng);
    let deep = rng.chance(30);
    if deep {
        plan.deep = true;
        plan.ifs = rng.pick(&[MAX_DEPTH, MAX_DEPTH, MAX_DEPTH + 1, MAX_IFS]);
    }
    let mut draft = plan.build(rng);
    let list = match draft.list_at(rng, MAX_DEPTH..=MAX_DEPTH) {
        Some(list) if deep => list,
        _ => draft.any_list(rng),
    };
    match aim {
        4 => out_of_range(rng, &mut draft, list),
        5 => wrong_widths(rng, &mut draft, list),
        _ => out_of_place(rng, &mut draft, list),
    }
    Text::new(draft.encode())
}

/// The commands that have operands.
const WITH_OPERANDS: [u8; 13] = [
    0x01, 0x02, 0x03, 0x04, 0x05, 0x06, 0x07, 0x08, 0x09, 0x0A, 0x0B, 0x0E, 0x0F,
];

#[derive(Clone, Copy)]
enum Operand {
    Variable,
    Array,
    Relation,
}

/// The operands of each command that has none of four bytes.
fn operands(code: u8) -> &'static [Operand] {
    use Operand::{Array, Relation, Variable};
    match code {
        0x02 | 0x06..=0x08 => &[Variable, Variable],
        0x03..=0x05 | 0x0E | 0x0F => &[Variable, Variable, Variable],
        0x09 => &[Variable, Array, Variable],
        0x0A => &[Array, Variable, Variable],
        0x0B => &[Relation, Variable, Variable],
        _ => &[],
    }
}

/// A command with one operand, or the constant, out of range. Its other
/// operands are any variables, so its widths are often wrong as well.
fn out_of_range(rng: &mut Rng, draft: &mut Draft, list: usize) {
    let width = draft.header.widths[0];
    if rng.chance(20) && width < 32 {
        let least = 1_u32 << width;
        let constant = rng.pick(&[least, least + 1, 1 << 31, u32::MAX]);
        return draft.insert(rng, list, set_to(0, constant));
    }
    let code = rng.pick(&WITH_OPERANDS);
    let command = if code == 0x01 {
        set_to(operand(rng, &draft.header, Operand::Variable, false), 0)
    } else {
        let wrong = rng.below(operands(code).len());
        let mut command = vec![code];
        for (at, &kind) in operands(code).iter().enumerate() {
            command.push(operand(rng, &draft.header, kind, at != wrong));
        }
        command
    };
    put_command(rng, draft, list, command);
}

/// An operand of this kind, in range or just or far outside it. Without arrays
/// no array is in range.
fn operand(rng: &mut Rng, header: &Header, kind: Operand, in_range: bool) -> u8 {
    let count = match kind {
        Operand::Variable => header.widths.len(),
        Operand::Array => header.sizes.len(),
        Operand::Relation => 10,
    };
    if in_range && count > 0 {
        rng.below(count) as u8
    } else {
        let count = count as u8;
        rng.pick(&[count, count + 1, 32, 255])
    }
}

/// An if needs its two arms around it, or the fault would not be the only one.
fn put_command(rng: &mut Rng, draft: &mut Draft, list: usize, command: Vec<u8>) {
    match <[u8; 4]>::try_from(command.as_slice()) {
        Ok(head) if head[0] == 0x0B => {
            draft.insert_if(rng, list, head);
        }
        _ => draft.insert(rng, list, command),
    }
}

/// A command whose operands are there but differ in width where they must
/// not, or do not differ in the way they must.
fn wrong_widths(rng: &mut Rng, draft: &mut Draft, list: usize) {
    let header = draft.header.clone();
    let d = header.any_variable(rng);
    let same = equal(rng, &header, d);
    let resize = rng.pick(&[0x06, 0x07, 0x08]);
    let command = match header.variable_where(rng, d, |width, own| width != own) {
        None => vec![resize, d, same],
        Some(s) => match rng.below(7) {
            0 => vec![resize, d, same],
            1 if header.widths[usize::from(d)] > header.widths[usize::from(s)] => {
                vec![0x06, d, s]
            }
            1 => vec![rng.pick(&[0x07, 0x08]), d, s],
            2 => vec![0x02, d, s],
            3 => vec![rng.pick(&OPERATIONS), d, same, s],
            4 => vec![rng.pick(&OPERATIONS), d, s, same],
            5 => vec![rng.pick(&OPERATIONS), d, s, s],
            _ => vec![0x0B, rng.below(10) as u8, d, s],
        },
    };
    put_command(rng, draft, list, command);
}

/// An else, end of if or end where none may stand, or a ninth if inside one
/// another.
fn out_of_place(rng: &mut Rng, draft: &mut Draft, list: usize) {
    if rng.chance(60) {
        let stray = rng.pick(&[0x00, 0x0C, 0x0D]);
        return draft.insert(rng, list, vec![stray]);
    }
    let mut list = draft.list_at(rng, MAX_DEPTH..=MAX_DEPTH).unwrap_or(list);
    for _ in 0..rng.pick(&[1, 1, 1, 9]) {
        let head = condition(rng, &draft.header);
        list = draft.insert_if(rng, list, head)[rng.below(2)];
    }
}

/// One if or one access too many, sometimes both.
fn too_many(rng: &mut Rng) -> Text {
    let mut plan = Plan::draw(rng);
    if rng.chance(10) {
        return too_many_and_too_deep(rng, plan);
    }
    let aim = rng.below(3);
    if aim != 0 || plan.header.sizes.is_empty() {
        plan.ifs = MAX_IFS + rng.pick(&[1, 1, 2]);
    }
    if aim != 1 && !plan.header.sizes.is_empty() {
        plan.accesses = MAX_ACCESSES + rng.pick(&[1, 1, 2]);
    }
    Text::new(plan.build(rng).encode())
}

/// Ifs inside one another at the end of the routine, so that the first one
/// too deep is also the 33rd, or one of its neighbours.
fn too_many_and_too_deep(rng: &mut Rng, mut plan: Plan) -> Text {
    let before = MAX_IFS - MAX_DEPTH;
    plan.ifs = rng.pick(&[before - 1, before, before, before + 1]);
    let mut draft = plan.build(rng);
    let mut list = TOP;
    for _ in 0..=MAX_DEPTH {
        let head = condition(rng, &draft.header);
        list = draft.append_if(list, head)[rng.below(2)];
    }
    Text::new(draft.encode())
}

/// Bytes after the end, whatever they are.
fn trailing(rng: &mut Rng) -> Text {
    let mut plan = Plan::draw(rng);
    plan.full = rng.chance(5);
    let mut text = Text::new(plan.build(rng).encode());
    if rng.chance(50) {
        append(rng, &mut text);
    } else {
        text.bytes.extend(plain(rng, &plan.header));
        text.bytes.push(0x00);
    }
    if rng.chance(20) && text.bytes.len() < MAX_BYTES {
        text.bytes.resize(MAX_BYTES, 0);
    }
    text
}
