/* Every call of bindings/menduvo.h from C: a case on standard input, an assignment as arguments. Prints the numbers of each answer
 * and what was written; then refusals 1 and 10 to 12, with what the slices still hold. Schedules of another case are filled: one that
 * violates, and each refusal in its order, with what the slice holds. The lines of the first case are taken thread by thread, front to
 * back, with what is held after each thread; then a lock and refusals 4, 6 and 9. */
#include "menduvo.h"
#include <stdio.h>
#include <stdlib.h>
#include <string.h>

static void tell(const char *call, MenduvoNumbers n) {
    printf("%s: %u %u %u %u %u\n", call, n.refusal, n.place, n.answer, n.first, n.second);
}

static void tell_text(const char *call, MenduvoTextNumbers n) {
    printf("%s: %u %u %lu\n", call, n.refusal, n.place, (unsigned long)n.bytes);
}

static void tell_copies(const char *call, MenduvoCopies n) {
    printf("%s: %u %u %u %u %u %u\n", call, n.refusal, n.place, n.guard, n.a, n.b, n.target);
}

static void tell_slice(const uint16_t *numbers, size_t count) {
    for (size_t i = 0; i < count; i++) printf(" %u", numbers[i]);
    printf("\n");
}

/* Fills one schedule into so many numbers of a slice that has 7s, and tells all of the slice. */
static void fill_one(const char *what, const uint8_t *bytes, size_t length, const uint16_t *schedule, size_t count, size_t room) {
    uint16_t slice[12] = {7, 7, 7, 7, 7, 7, 7, 7, 7, 7, 7, 7};
    tell(what, menduvo_fill(bytes, length, schedule, count, slice, room));
    tell_slice(slice, 12);
}

/* T 2, n 2, G 1, M 0. Thread 0: L0 = input, assume L0, assert L0 < 5; thread 1: G0 = 9. An assignment has 2 x 4 + 2 x 1 numbers. */
static void fill_others(void) {
    const uint16_t fields[16 + 4 * 8] = {2, 2, 1, 0, 1, 4, 0, 0, 6, 0, 0, 0, 0, 0, 0, 0, /* */
                                         2, 4, 0, 0, 0, 0, 0, 0, 3, 6, 0, 0, 0, 0, 0, 0, /* */
                                         0, 5, 0, 0, 6, 0, 16, 5, 0, 2, 0, 0, 0, 16, 0, 9};
    const uint16_t violates[4] = {3, 1, 0, 6}, stops[4] = {3, 0, 0, 6}, clean[4] = {3, 1, 0, 4}, cut_off[4] = {3, 1, 0, 0};
    const uint16_t late[4] = {2, 1, 1, 6}, later[4] = {1, 1, 2, 6}, clean_and_late[4] = {2, 1, 1, 4}, not_run[4] = {0, 1, 0, 6};
    const uint16_t too_many[4] = {4, 1, 0, 6};
    uint8_t bytes[sizeof fields];
    for (size_t i = 0; i < sizeof fields; i++) bytes[i] = (uint8_t)(fields[i / 2] >> 8 * (i % 2));
    fill_one("fill, a schedule that violates", bytes, sizeof bytes, violates, 4, 12);
    fill_one("fill, with no number to spare", bytes, sizeof bytes, violates, 4, 10);
    fill_one("fill, one that stops", bytes, sizeof bytes, stops, 4, 12);
    fill_one("fill, a byte less of the case, and no room", bytes, sizeof bytes - 1, too_many, 3, 9);
    fill_one("fill, one number less of room, and of a schedule with too many lines", bytes, sizeof bytes, too_many, 3, 9);
    fill_one("fill, one number less of such a schedule", bytes, sizeof bytes, too_many, 3, 12);
    fill_one("fill, too many lines", bytes, sizeof bytes, too_many, 4, 12);
    fill_one("fill, an input that is not run", bytes, sizeof bytes, not_run, 4, 12);
    fill_one("fill, clean", bytes, sizeof bytes, clean, 4, 12);
    fill_one("fill, cut off", bytes, sizeof bytes, cut_off, 4, 12);
    fill_one("fill, clean and late", bytes, sizeof bytes, clean_and_late, 4, 12);
    fill_one("fill, an assert that is late", bytes, sizeof bytes, late, 4, 12);
    fill_one("fill, an assume that is late", bytes, sizeof bytes, later, 4, 12);
}

/* The 16 bits at a place of the case, low byte first. */
static uint16_t field(const uint8_t *bytes, size_t place) {
    return (uint16_t)(bytes[2 * place] | bytes[2 * place + 1] << 8);
}

static void take_lines(const uint8_t *bytes) {
    uint16_t record[8];
    for (size_t thread = 0; thread < field(bytes, 0); thread++) {
        uint16_t held[MENDUVO_NAMES] = {0};
        for (uint16_t number = field(bytes, 4 + thread); number != 0; number = record[0]) {
            for (size_t i = 0; i < 8; i++) record[i] = field(bytes, 16 + 8 * ((size_t)number - 1) + i);
            tell_copies("take_line", menduvo_take_line(field(bytes, 2), field(bytes, 3), number, record, held));
        }
        tell_slice(held, MENDUVO_NAMES);
    }
}

static void take_others(void) {
    /* Mutex 1 of two, after three globals, where local 2 is 0. Its next number is one that no record can have. */
    const uint16_t lock[8] = {999, 7, 19, 1, 0, 0, 0, 0};
    uint16_t held[MENDUVO_NAMES];
    for (uint16_t name = 0; name < MENDUVO_NAMES; name++) held[name] = (uint16_t)(1000 + name);
    tell_copies("take_line, a lock", menduvo_take_line(3, 2, 256, lock, held));
    tell_copies("take_line, the same again", menduvo_take_line(3, 2, 255, lock, held));
    tell_copies("take_line, nine globals", menduvo_take_line(9, 2, 0, lock, held));
    tell_copies("take_line, five mutexes", menduvo_take_line(3, 5, 0, lock, held));
    tell_copies("take_line, no record", menduvo_take_line(3, 1, 0, lock, held));
    tell_copies("take_line, record 257", menduvo_take_line(3, 1, 257, lock, held));
    tell_copies("take_line, one mutex", menduvo_take_line(3, 1, 77, lock, held));
    tell_slice(held, MENDUVO_NAMES);
}

int main(int argc, char **argv) {
    static uint8_t bytes[MENDUVO_MOST_CASE_BYTES + 1], text[MENDUVO_MOST_LISTING_BYTES];
    static uint16_t table[MENDUVO_MOST_TABLE_NUMBERS], assignment[MENDUVO_MOST_VARIABLES], filled[MENDUVO_MOST_VARIABLES];
    uint16_t schedule[MENDUVO_MOST_SCHEDULE_NUMBERS] = {0}, items[MENDUVO_MOST_ITEMS] = {0}, kept[2] = {7, 8};
    size_t length = fread(bytes, 1, sizeof bytes, stdin), count = 0, schedule_length;
    for (; count + 1 < (size_t)argc && count < MENDUVO_MOST_VARIABLES; count++) assignment[count] = (uint16_t)atoi(argv[count + 1]);

    tell("accept", menduvo_accept(bytes, length));
    MenduvoNumbers encoded = menduvo_encode(bytes, length, table, MENDUVO_MOST_TABLE_NUMBERS);
    tell("encode", encoded);
    tell_slice(table, 6 * (size_t)encoded.first);
    tell("check", menduvo_check(bytes, length, assignment, count));
    MenduvoNumbers decoded = menduvo_decode(bytes, length, assignment, count, schedule, MENDUVO_MOST_SCHEDULE_NUMBERS);
    tell("decode", decoded);
    schedule_length = decoded.first;
    tell_slice(schedule, schedule_length);
    tell("replay", menduvo_replay(bytes, length, schedule, schedule_length, items, MENDUVO_MOST_ITEMS));
    tell_slice(items, 2);
    tell("fill", menduvo_fill(bytes, length, schedule, schedule_length, filled, MENDUVO_MOST_VARIABLES));
    printf("the assignment again: %s\n", memcmp(filled, assignment, count * sizeof *filled) == 0 ? "yes" : "no");
    MenduvoNumbers listed = menduvo_listing(bytes, length, text, MENDUVO_MOST_LISTING_BYTES);
    tell("listing", listed);
    fwrite(text, 1, listed.first, stdout);
    MenduvoTextNumbers measured = menduvo_smt_length(bytes, length);
    tell_text("smt_length", measured);
    text[measured.bytes] = 'x';
    tell_text("smt_text", menduvo_smt_text(bytes, length, text, measured.bytes));
    fwrite(text, 1, measured.bytes + 1, stdout);
    printf("\n");

    tell("encode, short", menduvo_encode(bytes, length, kept, 2));
    tell("decode, short", menduvo_decode(bytes, length, assignment, count, kept, 2));
    tell("check, one number less", menduvo_check(bytes, length, assignment, count - 1));
    tell("replay, one number less", menduvo_replay(bytes, length, schedule, schedule_length - 1, kept, 2));
    tell("fill, one number less", menduvo_fill(bytes, length, schedule, schedule_length - 1, filled, count));
    tell("fill, short", menduvo_fill(bytes, length, schedule, schedule_length, kept, 2));
    tell("listing, short", menduvo_listing(bytes, length, text, 1));
    tell_text("smt_text, short", menduvo_smt_text(bytes, length, (uint8_t *)kept, 4));
    tell_text("smt_text, one byte less", menduvo_smt_text(bytes, length, text, measured.bytes - 1));
    tell_text("smt_text, one byte more", menduvo_smt_text(bytes, length, text, measured.bytes + 1));
    tell_text("smt_length, a byte less of the case", menduvo_smt_length(bytes, length - 1));
    tell_text("smt_text, a byte less of the case", menduvo_smt_text(bytes, length - 1, (uint8_t *)kept, 4));
    tell_slice(kept, 2);

    fill_others();
    take_lines(bytes);
    take_others();
    return 0;
}
