/*
 * Replays a schedule on a case, with Menduvo's proved calls:
 *
 *     replay CASE NUMBER..
 *
 * The numbers are the block lengths, one for each block, and then a value for each input line. README.md, "From C and Rust",
 * has the line that compiles it. The exit status is that of `menduvo replay`: 1 where the run violates, 2 where the case or the
 * schedule is refused, 3 where something else failed.
 */
#include <errno.h>
#include <menduvo.h>
#include <stdio.h>
#include <stdlib.h>
#include <string.h>

/* Says what failed, as the exit status. */
static int failed(const char *what, const char *why) {
    fprintf(stderr, "replay: %s: %s\n", what, why);
    return 3;
}

/* Says which input was refused, where, and what that means, as the exit status. The texts stand in the header. */
static int refused(const char *input, MenduvoNumbers numbers) {
    fprintf(stderr, "replay: %s: refusal %u, place %u: %s\n", input, numbers.refusal, numbers.place,
            menduvo_refusal_text(numbers.refusal));
    return 2;
}

/* Reads a number of 16 bits, decimal and nothing else; 0 where it is none. */
static int read_number(const char *word, uint16_t *number) {
    char *end;
    errno = 0;
    unsigned long value = strtoul(word, &end, 10);
    if (*word < '0' || *word > '9' || *end != 0 || errno != 0 || value > UINT16_MAX) return 0;
    *number = (uint16_t)value;
    return 1;
}

/* Whether a record of the case is an unlock: its second field, low byte first, is the kind. */
static int is_unlock(const uint8_t *bytes, uint16_t record) {
    return bytes[32 + 16 * ((size_t)record - 1) + 2] == 8;
}

/* Says what the run came to, as the exit status. */
static int tell(const uint8_t *bytes, MenduvoNumbers run) {
    switch (run.answer) {
    case 1:
        printf("violated: record %u is %s\n", run.first, is_unlock(bytes, run.first) ? "an unlock by a stranger" : "a zero assert");
        return 1;
    case 2: printf("clean: the run is legal and does not violate\n"); return 0;
    default: printf("cut off: the assume or lock of record %u failed\n", run.first); return 0;
    }
}

int main(int argc, char **argv) {
    /* One byte more than any case has: a longer file is refused, and not taken for its beginning. */
    static uint8_t bytes[MENDUVO_MOST_CASE_BYTES + 1];
    /* Rooms of the largest sizes are never too short. */
    static uint16_t table[MENDUVO_MOST_TABLE_NUMBERS], schedule[MENDUVO_MOST_SCHEDULE_NUMBERS + 1];
    uint16_t items[MENDUVO_MOST_ITEMS];
    if (argc < 2) return failed("usage", "replay CASE NUMBER..");

    FILE *file = fopen(argv[1], "rb");
    if (file == NULL) return failed(argv[1], strerror(errno));
    size_t length = fread(bytes, 1, sizeof bytes, file);
    if (ferror(file)) return failed(argv[1], strerror(errno));
    fclose(file);

    MenduvoNumbers accepted = menduvo_accept(bytes, length);
    if (accepted.refusal != 0) return refused(argv[1], accepted);
    MenduvoNumbers encoded = menduvo_encode(bytes, length, table, MENDUVO_MOST_TABLE_NUMBERS);
    if (encoded.refusal != 0) return refused(argv[1], encoded);
    printf("%s: %u constraint%s over %u variable%s\n", argv[1], encoded.first, encoded.first == 1 ? "" : "s", encoded.second,
           encoded.second == 1 ? "" : "s");

    /* A schedule with more numbers than any has is refused, as one number too many is. */
    size_t count = 0;
    for (int word = 2; word < argc && count <= MENDUVO_MOST_SCHEDULE_NUMBERS; word++, count++)
        if (!read_number(argv[word], &schedule[count])) return failed(argv[word], "not a number from 0 to 65535");
    MenduvoNumbers run = menduvo_replay(bytes, length, schedule, count, items, MENDUVO_MOST_ITEMS);
    if (run.refusal != 0) return refused("the schedule", run);

    /* Bytes 4 to 7 of a case are the numbers of globals and of mutexes, low byte first. */
    size_t item_count = (size_t)bytes[4] + bytes[6];
    printf("items:");
    for (size_t item = 0; item < item_count; item++) printf(" %u", items[item]);
    printf("\n");
    return tell(bytes, run);
}
