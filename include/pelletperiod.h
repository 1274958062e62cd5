/*
 * pelletperiod.h - checking, running and translating loop-free pick routines,
 * and judging reports about them.
 *
 * Routines are those of document 01 with what note 1 of document 02 adds: the
 * commands 0x0E d, s, t and 0x0F d, s, t, unsigned quotient and remainder of s
 * by t. By 0 they are all ones and s. 0x10 is the first unknown command.
 * pellet_space is the call of note 2.
 *
 * By its note 4 nothing is cleared before a run: a variable that is no
 * parameter begins with what the last pick left in it, and that is an input as
 * well. An input list has one word for each variable in order, the parameters
 * first and then the others' leftovers, and then one for each read in the order
 * of the text: as many words as there are variables and reads. The word of read
 * r is number r plus the number of variables.
 *
 * Every buffer is lent for the time of the call as a pointer and a number of
 * entries. A pointer must not be null, also where the number of entries is 0,
 * and must be aligned for its entries. A buffer that the call may write, one
 * whose pointer is not to const, must not overlap anything else lent to that
 * call; buffers that are only read may overlap one another. Nothing is kept
 * from one call to the next.
 *
 * What a call returns:
 *
 *   0    done; `answer` is filled as said at the function.
 *   254  only from pellet_prove: what it is given is not as it says there;
 *        nothing is changed, not even `answer`.
 *   255  `answer` has fewer than 16 entries; nothing is changed, except that
 *        pellet_judge zeroes its five buffers on every return.
 *   else the number of a refusal; answer[0] receives its place, and nothing
 *        else is changed, unless the function says so.
 *
 *   number  place                     when
 *        1  0                         routine empty or over 4,096 bytes
 *        2  offset of the field       header field wrong or not whole
 *        3  offset of the command     command unknown, cut short or missing
 *        4  offset of the command     operand or constant out of range
 *        5  offset of the command     widths that do not go together
 *        6  offset of the command     else, end of if or end out of place,
 *                                     or a ninth if inside one another
 *        7  offset of the command     33rd if or 65th access
 *        8  offset of the first       bytes after the end
 *           such byte
 *        9  number of words given     wrong number of inputs
 *       10  number of the input,      input too great for its variable
 *           in the list from 0
 *       11  number of decisions       wrong number of decisions
 *           given
 *       11  length of the report      of a report: its lead cut short, or more
 *                                     than 16,777,216 bytes
 *       12  0 for the access, 1 for   access, side or decision out of range
 *           the side, 2 + k for the
 *           decision of if k
 *       13  number of the if          witness takes another arm there than the
 *                                     decided one
 *       14  named access              witness ends or stops without coming to it
 *       15  named access              witness's index there not on the side
 *       16  0 for `words`,            buffer too small
 *           1 for `starts`,
 *           2 for `marks`,
 *           3 for `values`,
 *           4 for `trail`
 *       17  offset of the command     proof command unknown, cut short or missing
 *       18  offset of the command     literal not of a variable, twice, with its
 *                                     opposite, or after a hint
 *       19  offset of the command     hint of a clause that is not there yet
 *       20  offset of the command     hint that neither decides a variable nor
 *                                     conflicts
 *       21  offset of the command     close without conflict
 *       22  offset of the command     hint after the conflict
 *       23  offset of the command     end without the empty clause, or another
 *                                     command after it
 *       24  offset of the first       bytes after the end of the proof
 *           such byte
 *       25  offset of the command     no room in `words` or `starts` for the
 *                                     clause of a step
 *
 * The refusals are looked for in this order, 3 to 7 command by command; in a
 * report 11 and 12 come before 10, of 13 and 14 the one that the witness's run
 * meets first, and in a proof 17, 23, 18, 19, 22, 20, 21 and 25 are looked for
 * command by command and then 24.
 * Entries of `answer` that are not named are left alone. Only the first
 * 16,777,216 entries of a buffer are used; needing more of them counts as a
 * buffer that is too small.
 */
#ifndef PELLETPERIOD_H
#define PELLETPERIOD_H

#include <stddef.h>
#include <stdint.h>

#ifdef __cplusplus
extern "C" {
#endif

/*
 * Checks a routine; refuses with 1 to 8.
 *
 * On 0 the answer holds:
 *
 *   answer[0]  number of variables
 *   answer[1]  number of parameters
 *   answer[2]  number of arrays
 *   answer[3]  number of ifs
 *   answer[4]  number of accesses
 *   answer[5]  number of reads
 *   answer[6]  offset of the first command
 *
 * The first answer[1] variables are what the caller names parameters. Nothing
 * else goes by this number: every variable has its word in an input list.
 *
 * `routine` is only read.
 */
uint8_t pellet_check(const uint8_t *routine, size_t routine_len,
                     uint64_t *answer, size_t answer_len);

/*
 * Runs a routine on a list of inputs; refuses with 1 to 10 and 16.
 *
 * `inputs` holds one word for each variable, the parameters first and then what
 * the others are left with, then one for each read in the order of the text,
 * each below 2 to the width of its variable. The variables begin with their
 * words. A read that the run does not come to has a word all the same.
 *
 * On 0 the answer holds, where the run came to the end:
 *
 *   answer[0]  0
 *
 * and where an index outside its array stopped the run:
 *
 *   answer[0]  1
 *   answer[1]  number of the access that stopped it
 *   answer[2]  side: 0 if the index is below 0, 1 if it is at or above the size
 *   answer[3]  1 if the index is negative, else 0
 *   answer[4]  the index without its sign
 *
 * Ended or stopped, the first entries of `values` hold the values of all
 * variables, and the first entries of `trail` one byte for each if: 0 where
 * the run took the first arm, 1 where it took the else, 2 where it did not
 * come to the if. What lies beyond is left alone. A refusal leaves `values`
 * and `trail` alone altogether.
 *
 * `routine` and `inputs` are only read.
 */
uint8_t pellet_run(const uint8_t *routine, size_t routine_len,
                   const uint32_t *inputs, size_t inputs_len,
                   uint32_t *values, size_t values_len,
                   uint8_t *trail, size_t trail_len,
                   uint64_t *answer, size_t answer_len);

/*
 * Translates a routine into clauses about the runs that come to one access by
 * the given decisions with an index that is not on the given side; refuses
 * with 1 to 8, 11, 12 and 16.
 *
 * `access` is the number of the access, in the order of the text; `side` is 0
 * for below and 1 for above. `decisions` holds one byte for each if, in the
 * order of the text: 0 for its first arm, 1 for its else, 2 where it is free.
 *
 * Variables are numbered from 1; variable 1 is true. Literal 2v is variable v,
 * literal 2v + 1 its opposite. From 2 on they are the bits with which the
 * variables of the routine begin, parameters and leftovers alike, the first
 * variable's first and of each the lowest bit first; then, in the order of the
 * text, the gates, and the bits of each read after those of its access.
 *
 * On 0 the answer holds:
 *
 *   answer[0]  number of clauses
 *   answer[1]  number of words that the clauses take
 *   answer[2]  number of variables
 *
 * The first answer[1] entries of `words` hold the clauses one behind the
 * other, each as the count of its literals and then the literals; the first
 * answer[0] entries of `starts` hold the offset of each clause's count. The
 * last two clauses have one literal each: that the run arrives, and that the
 * index is not on the side. What lies beyond is left alone. A refusal leaves
 * `words` and `starts` alone altogether.
 *
 * `routine` and `decisions` are only read.
 */
uint8_t pellet_translate(const uint8_t *routine, size_t routine_len,
                         uint8_t access, uint8_t side,
                         const uint8_t *decisions, size_t decisions_len,
                         uint32_t *words, size_t words_len,
                         uint32_t *starts, size_t starts_len,
                         uint64_t *answer, size_t answer_len);

/*
 * Tells what pellet_translate would answer in buffers large enough, without
 * any; refuses with 1 to 8, 11 and 12, as pellet_translate does.
 *
 * On 0 the answer holds:
 *
 *   answer[0]  number of clauses
 *   answer[1]  number of words that the clauses take
 *   answer[2]  number of variables
 *
 * pellet_translate then refuses with 16 exactly when `words` has fewer than
 * answer[1] entries or answer[1] is above 16,777,216 (place 0), and else when
 * `starts` has fewer than answer[0] entries or answer[0] is above 16,777,216
 * (place 1). Otherwise it answers these three numbers.
 *
 * With w the greatest width, n commands (each if, else, end of if and end
 * among them) and f ifs there are at most
 * 1 + 32w + 4w(w + 1)n + (32w + 1)f variables, 6 times as many clauses and 24
 * times as many words.
 *
 * `routine` and `decisions` are only read.
 */
uint8_t pellet_space(const uint8_t *routine, size_t routine_len,
                     uint8_t access, uint8_t side,
                     const uint8_t *decisions, size_t decisions_len,
                     uint64_t *answer, size_t answer_len);

/*
 * Checks a proof, read from `report` at the offset `from` on, that no
 * assignment satisfies the given clauses; refuses with 17 to 25.
 *
 * `words` and `starts` hold `clauses` clauses, of the variables 1 to
 * `variables`, as pellet_translate leaves them: one behind the other from
 * words[0] on, with the offset of each one's count in `starts`. `marks` has at
 * least one entry for each variable and one more; what it holds does not
 * matter. `from` is at most the length of `report`, and that at most
 * 16,777,216. Where this is not so the call returns 254, which is no number of
 * document 01, and nothing is changed, not even `answer`.
 *
 * On 0 no assignment satisfies the clauses, and the answer holds:
 *
 *   answer[0]  number of steps closed
 *   answer[1]  number of hints read
 *
 * The clause of a step stays where it stands in the report. 25 counts the words
 * that it would take in `words` behind the clauses before it: one for the count
 * of its literals and one for each literal.
 *
 * `starts` and `marks` are worked in. On 0 and on a refusal their first
 * 16,777,216 entries are zeros, as far as they have so many, and what lies
 * beyond is left alone.
 *
 * `report` and `words` are only read.
 */
uint8_t pellet_prove(const uint8_t *report, size_t report_len, size_t from,
                     uint32_t clauses, uint32_t variables,
                     const uint32_t *words, size_t words_len,
                     uint32_t *starts, size_t starts_len,
                     uint8_t *marks, size_t marks_len,
                     uint64_t *answer, size_t answer_len);

/*
 * Judges a report on a routine; refuses with 1 to 8 and 10 to 25.
 *
 * A report is its lead and then its proof. The lead is the number of an
 * access, a side (0 below, 1 above), a decision byte for each if (0 first arm,
 * 1 else, 2 free), and an input list of four bytes for each word, the lowest
 * first: the witness. So with f ifs, v variables and r reads the lead has
 * 2 + f + 4(v + r) bytes.
 *
 * On 0 the witness comes to the access by the decisions and has an index there
 * on the side, every run that comes to the access by the decisions has, from
 * any leftovers, and the answer holds:
 *
 *   answer[0]  number of the access
 *   answer[1]  side: 0 below, 1 above
 *   answer[2]  number of the array
 *   answer[3]  size of the array
 *   answer[4]  1 if the witness's index is negative, else 0
 *   answer[5]  that index without its sign
 *   answer[6]  number of steps closed
 *   answer[7]  number of hints read
 *
 * What the five buffers hold does not matter. On every return, the refusals 1
 * to 8 and 255 among them, their first 16,777,216 entries are zeros, as far as
 * they have so many, and what lies beyond is left alone.
 *
 * `words` and `starts` have room for the translation and for the clause of
 * each step, `marks` for one entry a variable of the translation and one more,
 * `values` for the variables of the routine, `trail` for its ifs.
 *
 * `routine` and `report` are only read.
 */
uint8_t pellet_judge(const uint8_t *routine, size_t routine_len,
                     const uint8_t *report, size_t report_len,
                     uint32_t *words, size_t words_len,
                     uint32_t *starts, size_t starts_len,
                     uint8_t *marks, size_t marks_len,
                     uint32_t *values, size_t values_len,
                     uint8_t *trail, size_t trail_len,
                     uint64_t *answer, size_t answer_len);

/*
 * Says whether two reports on one routine name the same access and the same
 * side; refuses with 1 to 8, with 11 and 12 for the first report, then with 11
 * and 12 for the second. Witnesses and proofs are not looked at.
 *
 * On 0 the answer holds:
 *
 *   answer[0]  1 if the reports are alike, else 0
 *
 * `routine`, `first` and `second` are only read.
 */
uint8_t pellet_alike(const uint8_t *routine, size_t routine_len,
                     const uint8_t *first, size_t first_len,
                     const uint8_t *second, size_t second_len,
                     uint64_t *answer, size_t answer_len);

#ifdef __cplusplus
}
#endif

#endif /* PELLETPERIOD_H */
