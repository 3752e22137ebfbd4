/* A library that lies: it takes every case, and its replies are those that the variable LIE asks for. */
#include "menduvo.h"
#include <stdlib.h>
#include <string.h>

static int lie_is(const char *lie) {
    const char *asked = getenv("LIE");
    return asked != NULL && strcmp(asked, lie) == 0;
}

static MenduvoNumbers answer(uint16_t answer, uint16_t first, uint16_t second) {
    MenduvoNumbers numbers = {0, 0, answer, first, second};
    return numbers;
}

MenduvoNumbers menduvo_accept(const uint8_t *case_, size_t case_len) {
    (void)case_, (void)case_len;
    return answer(1, 0, 0);
}

MenduvoNumbers menduvo_encode(const uint8_t *case_, size_t case_len, uint16_t *table, size_t table_len) {
    (void)case_, (void)case_len, (void)table_len;
    if (!lie_is("fails") && !lie_is("stays") && !lie_is("row")) return answer(1, 0, 12);
    /* The block number of record 1 modulo 2 is 0; that of record 2 is that of record 1; or a row that no table has. */
    const uint16_t rows[3][6] = {{3, 1, 2, 0, 0, 0}, {8, 2, 1, 0, 0, 0}, {9, 1, 2, 0, 0, 0}};
    memcpy(table, rows[lie_is("fails") ? 0 : lie_is("stays") ? 1 : 2], sizeof rows[0]);
    return answer(1, 1, 12);
}

MenduvoNumbers menduvo_check(const uint8_t *case_, size_t case_len, const uint16_t *assignment, size_t assignment_len) {
    (void)case_, (void)case_len, (void)assignment, (void)assignment_len;
    if (lie_is("fails") || lie_is("stays") || lie_is("row")) return answer(2, 1, 0);
    return lie_is("fails 0") ? answer(2, 0, 0) : answer(1, 0, 0);
}

MenduvoNumbers menduvo_decode(const uint8_t *case_, size_t case_len, const uint16_t *assignment, size_t assignment_len,
                              uint16_t *schedule, size_t schedule_len) {
    (void)case_, (void)case_len, (void)assignment, (void)assignment_len, (void)schedule, (void)schedule_len;
    MenduvoNumbers refused = {lie_is("refusal 18") ? 18 : 15, lie_is("fails") ? 1 : 0, 0, 0, 0};
    return refused;
}

/* That a run which violates does not; that record 3 is late, of every schedule or of one whose block 2 has one line; that record 2
 * is; and numbers beside a refusal or an answer, or an answer that there is not. */
MenduvoNumbers menduvo_fill(const uint8_t *case_, size_t case_len, const uint16_t *schedule, size_t schedule_len,
                            uint16_t *assignment, size_t assignment_len) {
    (void)case_, (void)case_len, (void)schedule_len, (void)assignment, (void)assignment_len;
    MenduvoNumbers refused = {0, 0, 0, 0, 0};
    if (lie_is("fill violates")) refused.refusal = 16;
    if (lie_is("fill late") && schedule[2] == 1) refused.refusal = 17, refused.place = 3;
    if (lie_is("fill moved")) refused.refusal = 17, refused.place = 3;
    if (lie_is("fill place")) refused.refusal = 17, refused.place = 2;
    if (lie_is("fill refused, with numbers")) refused.refusal = 16, refused.first = 1;
    return refused.refusal != 0 ? refused : answer(lie_is("fill answer") ? 2 : 1, 1, lie_is("fill second") ? 1 : 0);
}

MenduvoNumbers menduvo_listing(const uint8_t *case_, size_t case_len, uint8_t *text, size_t text_len) {
    (void)case_, (void)case_len, (void)text, (void)text_len;
    return answer(1, 0, lie_is("listing") ? 1 : 0);
}

/* A text that is longer than its room, or refusals that no text has. */
static MenduvoTextNumbers text_answer(size_t bytes) {
    MenduvoTextNumbers numbers = {lie_is("text refused") ? 11 : 0, lie_is("text place") ? 1 : 0, bytes};
    if (lie_is("text refused, with bytes")) numbers.refusal = 10;
    if (lie_is("text refused")) numbers.bytes = 0;
    return numbers;
}

MenduvoTextNumbers menduvo_smt_length(const uint8_t *case_, size_t case_len) {
    (void)case_, (void)case_len;
    return text_answer(7);
}

MenduvoTextNumbers menduvo_smt_text(const uint8_t *case_, size_t case_len, uint8_t *text, size_t text_len) {
    (void)case_, (void)case_len;
    memset(text, lie_is("text bytes") ? 0xff : 'x', text_len);
    return text_answer(lie_is("text longer") ? text_len + 1 : text_len);
}

/* That record 11 of release-broken is an unlock by a stranger; and where it is an assume, that the run does not get there, or finds
 * its own thread there, or none, as holder. The items at the end are those of the shipped schedule. */
static MenduvoNumbers lie_of_stranger(const uint8_t *case_, size_t case_len, uint16_t *items, size_t items_len) {
    const size_t kind = 32 + 16 * 10 + 2;
    if (items_len < 3 || case_len <= kind) return answer(2, 0, 0);
    items[0] = 1, items[1] = 0, items[2] = 0;
    if (case_[kind] != 6) return answer(1, 11, 0);
    if (lie_is("own")) items[2] = 2;
    return lie_is("stranger") ? answer(2, 0, 0) : answer(3, 11, 0);
}

MenduvoNumbers menduvo_replay(const uint8_t *case_, size_t case_len, const uint16_t *schedule, size_t schedule_len,
                              uint16_t *items, size_t items_len) {
    (void)schedule, (void)schedule_len;
    items[0] = lie_is("items") ? 6 : 5;
    if (lie_is("stranger") || lie_is("own") || lie_is("whose")) return lie_of_stranger(case_, case_len, items, items_len);
    if (lie_is("clean")) return answer(2, 0, 0);
    if (lie_is("record")) return answer(1, 3, 0);
    if (lie_is("answer")) return answer(4, 0, 0);
    return answer(1, 4, 0);
}

/* Copies beside a refusal or a place, a refusal that no line meets, or the place of another. */
MenduvoCopies menduvo_take_line(uint16_t globals, uint16_t mutexes, uint16_t number, const uint16_t record[8],
                                uint16_t held[MENDUVO_NAMES]) {
    (void)globals, (void)mutexes, (void)record, (void)held;
    MenduvoCopies copies = {0, 0, 0, 0, 0, 0};
    if (lie_is("line refused")) copies.refusal = 7;
    if (lie_is("line refused, with place")) copies.refusal = 6, copies.place = number;
    if (lie_is("line refused, with copies")) copies.refusal = 9, copies.place = number, copies.target = 1;
    if (lie_is("line refused elsewhere")) copies.refusal = 9, copies.place = (uint16_t)(number + 1);
    if (lie_is("line taken, with place")) copies.place = number;
    return copies;
}
