//! What the program says about itself.

const WHOLE: &str = "\
usage: pelletperiod COMMAND ...

check      prints a routine's counts
run        runs a routine on input words
translate  prints the clauses of a claim, for a SAT solver
space      prints how much room the clauses of a claim and judging take
judge      judges reports on a routine
propose    has a SAT solver decide a claim and writes the report
from-lrat  makes a report of a proof that a solver wrote

`pelletperiod COMMAND --help` says more about a command.
Exit status: 0 done or accepted, 1 refused or not so, 2 bad usage or a file or a solver that
cannot be used.";

const CHECK: &str = "\
usage: pelletperiod check ROUTINE

Prints the counts of a routine, or why it is refused. ROUTINE is a file of its bytes: the commands
are document 01's, and 0x0E and 0x0F, unsigned quotient and remainder, from note 1 of document 02.";

const RUN: &str = "\
usage: pelletperiod run ROUTINE [WORD]...

Runs a routine on input words, decimal or hexadecimal after 0x, of three kinds in this order:

  parameters  one for each parameter; they are the first variables
  leftovers   one for each other variable: what the last pick left in it
  reads       one for each read in the order of the text, also where the run does not come to it

Prints a line `inputs:` that tells the words by their kinds (one that the routine has none of is
left out), where the run ended or stopped, the values of all variables there, and the trail: for
each if 0 (first arm), 1 (else) or 2 (not come to).";

const TRANSLATE: &str = "\
usage: pelletperiod translate ROUTINE ACCESS SIDE DECISIONS

Prints clauses in DIMACS CNF: a run comes to the access by the decisions, and its index there is
not on the side. Where nothing satisfies them, every run that comes there by the decisions has
its index on the side, whatever the last pick left. Comments name the variables of the input bits,
the literal that is true where a run comes to the access, and the one that is true where its index
is on the side. Parameters and leftovers have the numbers of their variables in the routine, reads
those of the text, all from 0.

ACCESS is the number of the access from 0; SIDE is 0 for below and 1 for above; DECISIONS has a
digit for each if: 0 first arm, 1 else, 2 free; `-` where there is no if.";

const SPACE: &str = "\
usage: pelletperiod space ROUTINE ACCESS SIDE DECISIONS

Prints how many clauses, words and variables `pelletperiod translate` makes of a claim (see its
help for the four), without making them, and the bytes of memory that judging takes at least.

The bytes are those of the five buffers that are lent to the judge, with the fewest entries in
which any report on this claim can be accepted: 4 a word and 4 a clause, and 8 for the empty
clause, which closes every proof; 1 a variable of the clauses and 1 more; 4 a variable of the
routine and 1 an if. Every further step of a proof takes 8 and 4 a literal. Where more than
16,777,216 words are needed, no memory suffices: then `too large to judge` stands in their place.";

const JUDGE: &str = "\
usage: pelletperiod judge ROUTINE REPORT...

Judges reports on a routine and prints a line for each, after the file's name where there are
several. Exit status: 0 all accepted, 1 some refused, 2 bad usage or a file that cannot be read.";

const PROPOSE: &str = "\
usage: pelletperiod propose ROUTINE ACCESS SIDE DECISIONS [OPTION]...

Has a SAT solver decide whether every run that comes to the access by the decisions has its index
there on the side (see `pelletperiod translate --help` for the four), and prints one of

  accepted ...          the report stands in the file, and the library accepts it
  not so: inputs ...    these input words go there, and their index is not on the side: they can
                        be given to `pelletperiod run`, and the next line tells their kinds as
                        that does
  no run goes there

A leftover is 0 there, and in a report's witness, wherever 0 does as well.

  --out FILE        where to put the report (report.bin)
  --solver COMMAND  the solver with its options (cadical --no-block --no-cover --no-condition);
                    it is called with -q --no-binary and the names of a DIMACS file and of the
                    proof to write
  --seconds N       how long the solver may take over each of its two questions (no limit)

Exit status: 0 accepted, 1 not so, no run or a claim that is refused, 2 no answer.";

const FROM_LRAT: &str = "\
usage: pelletperiod from-lrat ROUTINE ACCESS SIDE DECISIONS PROOF (--witness WORDS | --model FILE)
                    [--out FILE]

Makes a report of a solver's proof of the clauses that `pelletperiod translate` prints, has the
library judge it, and prints the judge's line. PROOF is LRAT, or DRAT, for which hints are found;
both as text. Steps must follow by unit propagation: RAT steps cannot stand in a report.

  --witness WORDS  input words as `pelletperiod run` takes them, with commas between them
  --model FILE     what a solver printed about the clauses without the last one: the witness is
                   taken from its lines that begin with v
  --out FILE       where to put the report, if it is accepted (report.bin)

Exit status: 0 accepted, 1 refused, 2 bad usage or a proof that cannot be used.";

/// What is said about a command, or about the whole.
pub fn help(command: &str) -> &'static str {
    match command {
        "check" => CHECK,
        "run" => RUN,
        "translate" => TRANSLATE,
        "space" => SPACE,
        "judge" => JUDGE,
        "propose" => PROPOSE,
        "from-lrat" => FROM_LRAT,
        _ => WHOLE,
    }
}
