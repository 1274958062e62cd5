//! A report whose proof has a step for every gate: the routine sets each variable
//! before it uses it, so that no gate depends on what the last pick left. Each
//! has one value then, and a step settles it.

use differential::proof_draft::{encode, offset, Command, Refutation};
use oracle::{lead_len, parse, translate, Clauses};

const ACCESS: u8 = 0;
const BELOW: u8 = 0;

/// The report that every run comes to access 0 with an index below.
pub fn long_report(routine: &[u8]) -> Refutation {
    let mut sink = Clauses::default();
    let translation = translate(routine, ACCESS, BELOW, &[], &mut sink).expect("a valid claim");
    let (clauses, variables) = (sink.numbers(), translation.variables as u32);
    let commands = settle_all(&clauses, variables);
    Refutation {
        clauses,
        variables,
        commands,
        lead: lead(routine),
    }
}

/// The lead of such a report, for a routine without ifs. Any witness will do,
/// and this one is all 0.
pub fn lead(routine: &[u8]) -> Vec<u8> {
    let routine = parse(routine).expect("a valid routine");
    let mut lead = vec![ACCESS, BELOW];
    lead.resize(lead_len(&routine), 0);
    lead
}

/// What is settled: for each variable its true literal and the number of the
/// clause that has it alone.
struct Settled(Vec<Option<(u32, u32)>>);

impl Settled {
    fn is_false(&self, literal: u32) -> bool {
        self.0[literal as usize / 2].map_or(false, |(settled, _)| settled == literal ^ 1)
    }

    fn is_open(&self, literal: u32) -> bool {
        self.0[literal as usize / 2].is_none()
    }

    /// The clauses that make the others false, each once.
    fn units(&self, clause: &[u32]) -> Vec<u32> {
        let mut units: Vec<u32> = Vec::new();
        for &literal in clause.iter().filter(|&&literal| self.is_false(literal)) {
            let unit = self.0[literal as usize / 2].expect("it is settled").1;
            if !units.contains(&unit) {
                units.push(unit);
            }
        }
        units
    }
}

/// Goes through the clauses once, for each gate comes behind those that it is
/// made from: one whose literals are false but for a last one settles that.
fn settle_all(clauses: &[Vec<u32>], variables: u32) -> Vec<Command> {
    let mut settled = Settled(vec![None; variables as usize + 1]);
    settled.0[1] = Some((2, 0));
    let mut next = clauses.len() as u32;
    let mut commands = Vec::new();
    for (number, clause) in clauses.iter().enumerate() {
        let mut left = clause.iter().filter(|&&literal| !settled.is_false(literal));
        let open = match (left.next(), left.next()) {
            (None, _) => None,
            (Some(&literal), None) if settled.is_open(literal) => Some(literal),
            _ => continue,
        };
        commands.extend(open.map(Command::Literal));
        commands.extend(settled.units(clause).into_iter().map(Command::Hint));
        commands.extend([Command::Hint(number as u32), Command::Close]);
        match open {
            Some(literal) => settled.0[literal as usize / 2] = Some((literal, next)),
            None => break,
        }
        next += 1;
    }
    commands.push(Command::End);
    commands
}

/// The bytes of a report.
pub fn bytes(report: &Refutation) -> Vec<u8> {
    [report.lead.clone(), encode(&report.commands)].concat()
}

/// Has the last step before this one that has three hints give its first hint
/// twice, and hands back the offset where the report is then to be refused: what
/// the hint would decide is decided.
pub fn spoil(report: &mut Refutation, before: usize) -> usize {
    let steps = report.steps();
    let mut earlier = steps[..before].iter().rev();
    let step = earlier.find(|step| step.hints.len() >= 3);
    let second = step.expect("a step with three hints").hints.start + 1;
    report.commands[second] = report.commands[second - 1];
    report.lead.len() + offset(&report.commands, second)
}
