/*
 * Menduvo's calls, for C: the static library libmenduvo.a, written by `bin/library`.
 *
 * The calls are proved: what each of them answers, and what it leaves in each slice that it was lent, equals the definitions
 * in crates/model/specs (Accept, Answers, with what is filled in Fill, Listing, and of menduvo_take_line Taking, with the walk
 * itself in Copies) and crates/script/specs (Text), and every call returns. Not proved is how much of the stack a call takes. The
 * calls use no static and no heap: they hold nothing between them, allocate nothing, and may be called from any thread.
 *
 * A slice is a pointer and how many elements it has; those of menduvo_take_line have 8 and MENDUVO_NAMES, and come without a length.
 * The proof is about calls that keep three rules, which no call can test:
 *   - each pointer is valid for that many elements, and is not null, also where there are none;
 *   - it is aligned as its type asks (a uint16_t at an even address);
 *   - a slice that is written overlaps no other slice of the same call; and until the call returns nobody else uses a slice
 *     that is written, or writes to one that is read.
 * Of a call that breaks one of them nothing is claimed.
 *
 * A slice that is written is written from its start; elements beyond the result keep their values. A refused call alters
 * nothing. A slice that is const is never written.
 */
#ifndef MENDUVO_H
#define MENDUVO_H

#include <stddef.h>
#include <stdint.h>

#ifdef __cplusplus
extern "C" {
#endif

/* The version that this header is of; `menduvo --version` says the same, and which commit and library it was made of. */
#define MENDUVO_VERSION "0.1.0"
#define MENDUVO_VERSION_MAJOR 0
#define MENDUVO_VERSION_MINOR 1
#define MENDUVO_VERSION_PATCH 0

/*
 * The most that any accepted case needs. A table, an assignment, a schedule, items and a listing of these sizes are never refused
 * with 10, whatever the case; no accepted case is longer, and no assignment that is taken has more numbers. This is proved of the
 * definitions (crates/laws/specs/Sizes.antt, crates/delivered/specs/Delivered.antt; the limits are in crates/model/specs/Limits.antt).
 */
#define MENDUVO_MOST_CASE_BYTES 4128u       /* 32 bytes, and 16 for each of 256 records */
#define MENDUVO_MOST_TABLE_NUMBERS 8742u    /* six for each of 1,457 constraints */
#define MENDUVO_MOST_VARIABLES 692u         /* the numbers of an assignment: 512 of records, 180 block values */
#define MENDUVO_MOST_SCHEDULE_NUMBERS 272u  /* 16 block lengths, 256 input values */
#define MENDUVO_MOST_ITEMS 12u              /* 8 globals, then 4 mutexes */
#define MENDUVO_MOST_LISTING_BYTES 52464u   /* six for each number of the largest table, and for the two counts */
#define MENDUVO_MOST_SMT_BYTES 2000000u     /* no text for solvers is longer */

/* How many numbers are held for a thread, one for each name: 16 locals, 8 globals, 4 mutexes. See menduvo_take_line. */
#define MENDUVO_NAMES 28u

/*
 * An answer.
 *
 * Where `refusal` is 0 the call was not refused: `place` is 0, `answer` says which answer it is, counted from 1, and `first`
 * and `second` are the values that it carries, as the calls below say; a value that is not named there is 0.
 *
 * Where `refusal` is 1 to 17 the call was refused: `place` is where, and the other three are 0. No other refusal is given. The
 * place is 0 where MENDUVO_REFUSALS names none; records are counted from 1.
 */
typedef struct {
    uint16_t refusal, place, answer, first, second;
} MenduvoNumbers;

/*
 * An answer of the two calls on the text of a case, which may have more bytes than 16 bits can say.
 *
 * Where `refusal` is 0 the call was not refused: `place` is 0, and `bytes` is how many bytes the text has. Where it is 1 to 10 the
 * call was refused: `place` is where, as above, and `bytes` is 0. No other refusal is given.
 */
typedef struct {
    uint16_t refusal, place;
    size_t bytes;
} MenduvoTextNumbers;

/*
 * An answer about one line of a thread: the copies of its names.
 *
 * Where `refusal` is 0 the line was taken: `place` is 0, and the other four are the record numbers of the copies that the line has
 * before it, of the guard's local, of operand a (for a load of the global a), of operand b and of the target; 0 where the line has no
 * such name, or the name no copy. They are the four numbers that its constraint 4 has after the line. Where `refusal` is 4, 6 or 9
 * the line was refused: `place` is where, as above, and the other four are 0. No other refusal is given.
 */
typedef struct {
    uint16_t refusal, place, guard, a, b, target;
} MenduvoCopies;

/*
 * The refusals in checking order, each with its number and what it means: the macro X is used once for each, as
 * menduvo_refusal_text uses it. It is a list of macros so that a program may make of it what it needs (a switch, a table), and
 * so that the texts are in no program that does not use them.
 */
#define MENDUVO_REFUSALS(X)                                                                                    \
    X(1, "the case is not 32 + 16R bytes with R from 0 to 256")                                                \
    X(2, "T, the number of threads, is outside 2 to 4")                                                        \
    X(3, "n, the number of switches, is over 15")                                                              \
    X(4, "G, the number of globals, is over 8, or M, the number of mutexes, is over 4")                        \
    X(5, "a header field of an absent thread or global is not 0")                                              \
    X(6, "a first or next number is over R, or a record is reached twice")                                     \
    X(7, "a record is in no chain")                                                                            \
    X(8, "a thread has over 64 lines")                                                                         \
    X(9, "a record breaks the rules of its fields (the place is the lowest such record)")                      \
    X(10, "an output slice is shorter than what would be written")                                             \
    X(11, "the assignment does not have exactly 2R + n x (G + M) numbers")                                     \
    X(12, "the schedule does not have exactly n + 1 numbers and one for each input line")                      \
    X(13, "the block lengths of some thread add up to more than its lines")                                    \
    X(14, "an input line with a false guard, or not run, has a value other than 0 (the place is that record)") \
    X(15, "the assignment fails (the place is the first failed constraint, from 1)")                           \
    X(16, "the run of the schedule does not violate (it is clean, or cut off)")                                \
    X(17, "the schedule runs an invisible line in a later block than the line before it"                       \
          " (the place is the first such record, by thread and chain)")

/* What a refusal's number means, as text that ends in 0. It needs no library. Of a number that is none it says so. */
static inline const char *menduvo_refusal_text(uint16_t refusal) {
    switch (refusal) {
#define MENDUVO_TEXT_OF_ONE(number, text) case number: return text;
        MENDUVO_REFUSALS(MENDUVO_TEXT_OF_ONE)
#undef MENDUVO_TEXT_OF_ONE
    default: return "no refusal has this number";
    }
}

/*
 * Whether the other calls take this case.
 *   1  accepted
 * Refusals 1 to 9, which every other call on a case but the listing gives too, first and for the same cases.
 */
MenduvoNumbers menduvo_accept(const uint8_t *case_, size_t case_len);

/*
 * Writes the constraints of the case to `table`, six numbers for each.
 *   1  the table is written; first: how many constraints; second: how many variables they are about
 * Refusals 1 to 10.
 */
MenduvoNumbers menduvo_encode(const uint8_t *case_, size_t case_len, uint16_t *table, size_t table_len);

/*
 * Whether the assignment, one number for each variable, meets every constraint of the case.
 *   1  it meets them
 *   2  it fails; first: the first constraint that it fails, from 1
 * Refusals 1 to 9 and 11.
 */
MenduvoNumbers menduvo_check(const uint8_t *case_, size_t case_len, const uint16_t *assignment, size_t assignment_len);

/*
 * Writes the schedule that the assignment stands for: n + 1 block lengths, then a value for each input line, by thread and
 * then by chain. A line with block number n + 1 was not run, and counts in no block. The assignment must meet every constraint.
 * Such assignments and the violating schedules that keep the rule stand for each other, one for one: menduvo_fill is the way back. A
 * schedule keeps the rule when no invisible line (compute, input, assert, assume) is run in a later block than the line before it in
 * its thread.
 *   1  the schedule is written; first: how many numbers it has
 * Refusals 1 to 11 and 15.
 */
MenduvoNumbers menduvo_decode(const uint8_t *case_, size_t case_len, const uint16_t *assignment, size_t assignment_len,
                              uint16_t *schedule, size_t schedule_len);

/*
 * Runs the schedule, and writes the items' values at the end of the run, or where it is cut off, with the failed line not run:
 * G + M numbers, globals first, then mutexes. A mutex has 0 where it is free, and t + 1 where thread t holds it. A thread whose block
 * lengths add up to less than its lines stops there; an input line that is not run has value 0. Every schedule is taken, whether it
 * keeps the rule of menduvo_decode or not.
 *   1  violated: the run is legal and violates; first: the record of the first line that does, in running order. It is a zero assert,
 *      or an unlock by a stranger, a thread that does not hold the mutex; it frees it all the same. The record's kind tells which.
 *   2  clean: the run is legal and does not violate
 *   3  cut off, whatever came before; first: the record whose assume or lock failed
 * Refusals 1 to 10 and 12 to 14.
 */
MenduvoNumbers menduvo_replay(const uint8_t *case_, size_t case_len, const uint16_t *schedule, size_t schedule_len,
                              uint16_t *items, size_t items_len);

/*
 * Writes the assignment that stands for the schedule: 2R + n x (G + M) numbers, of each record its block number and its value, and
 * then the items' values at the end of each block but the last. A line that is not run has block number n + 1, and value 1 where it is
 * an assert or an assume, else 0. The schedule must violate, and keep the rule of menduvo_decode. Decoding what is written gives the
 * schedule back, and filling what menduvo_decode wrote gives the assignment back.
 *   1  the assignment is written; first: how many numbers it has
 * Refusals 1 to 10, 12 to 14, where menduvo_replay gives them too, then 16 and 17. A schedule that violates and breaks the rule meets
 * 17: with each such line in the block of the line before it, it is one that violates too and is taken.
 */
MenduvoNumbers menduvo_fill(const uint8_t *case_, size_t case_len, const uint16_t *schedule, size_t schedule_len,
                            uint16_t *assignment, size_t assignment_len);

/*
 * Writes the listing of the case to `text`, in ASCII, each line ended by a line feed: the counts of constraints and of variables,
 * then one constraint a line. Of a case that the other calls refuse it is one line with the number and place of the refusal; this
 * call is not refused there.
 *   1  the text is written; first: how many bytes it has
 * Refusal 10.
 */
MenduvoNumbers menduvo_listing(const uint8_t *case_, size_t case_len, uint8_t *text, size_t text_len);

/*
 * How many bytes the SMT-LIB text of the case has: the room that menduvo_smt_text needs.
 * Refusals 1 to 9.
 */
MenduvoTextNumbers menduvo_smt_length(const uint8_t *case_, size_t case_len);

/*
 * Writes the constraints of the case to `text` as SMT-LIB 2, logic QF_BV: the one text that docs/SMT-TEXT.md spells byte for byte,
 * in ASCII, from (set-logic QF_BV) to (check-sat) and a line feed; no 0 follows it. It declares v0, v1 and on, one for each number
 * of an assignment, and asserts one formula for each constraint, in the table's order: the first that an assignment makes false is
 * the first constraint that it fails.
 * Refusals 1 to 9, and then 10 where `text` is shorter than menduvo_smt_length says.
 */
MenduvoTextNumbers menduvo_smt_text(const uint8_t *case_, size_t case_len, uint8_t *text, size_t text_len);

/*
 * Takes one more line of a thread, for a builder that makes the lines of a case as it goes: each thread's front to back, each line
 * once. It answers with the copies of the line's names before it, which is the row of its constraint 4.
 *
 * `globals` and `mutexes` are G and M of the case that is built, `number` is the line's record number, and `record` has the eight
 * fields of its record: next, kind, guard, target, op, a, b, c. The field next is not looked at, since a builder may not know it yet.
 *
 * `held` is what is held for the thread, a record number for each name: local x at x, global g at 16 + g, mutex m at 16 + G + m. Each
 * thread has its own, all 0 before its first line. Afterwards it has `number` for the line's target, guarded or not, and is else as
 * it was; an assert or an assume has no target, and changes nothing. So after any line it has for each name the latest line up to
 * there with this target, or 0; and after the thread's last line, for each item, the last copy that the 6s have. What it has before
 * is not tested: any numbers are taken as they are.
 *
 * Refusals, in this order:
 *   4  G is over 8 or M is over 4
 *   6  `number` is not 1 to 256: no first or next number can name such a record
 *   9  the record breaks the rules of its fields, for this G and M; the place is `number`
 */
MenduvoCopies menduvo_take_line(uint16_t globals, uint16_t mutexes, uint16_t number, const uint16_t record[8],
                                uint16_t held[MENDUVO_NAMES]);

#ifdef __cplusplus
}
#endif

#endif
