/*
 * Builds a case line by line, with Menduvo's proved calls, and writes it to a file:
 *
 *     builder CASE
 *
 * Each thread's lines are handed on front to back, as they are made. menduvo_take_line says at once on which earlier lines a line
 * stands, and so its constraint 4 is printed before the next line is made. After a thread's last line stands what is held for each
 * item: the last copies that the 6s have. The case is that of mended.source in README.md, and the line that compiles this is under
 * "A builder of your own" there. The exit status is 2 where a line is refused, 3 where something else failed.
 */
#include <errno.h>
#include <menduvo.h>
#include <stdio.h>
#include <stdlib.h>
#include <string.h>

/* A record's fields, kinds of lines, ops, and the operand that is a constant. */
enum { NEXT, KIND, GUARD, TARGET, OP, A, B, C };
enum { COMPUTE = 1, STORE, LOAD, INPUT, ASSERT, ASSUME, LOCK, UNLOCK };
enum { COPY, SUM, DIFFERENCE, AND, OR, EQUAL, LESS };
enum { CONSTANT = 16 };

/* The case: two globals, a mutex, and what the threads call their locals. */
enum { THREADS = 2, SWITCHES = 3, GLOBALS = 2, MUTEXES = 1, ITEMS = GLOBALS + MUTEXES };
enum { COMMAND, TAKEN };
enum { COMMANDS };
enum { SEEN };
enum { WAITS, WAS_TAKEN, KEPT };

/* A record, with the fields that are not 0. */
#define LINE(...) (const uint16_t[8]){__VA_ARGS__}

/* Record k of the case stands at k - 1. */
static uint16_t records[256][8], record_count;

/* A thread: its first record, the latest one so far, and what is held for each of its names. All are 0 at first. */
typedef struct {
    uint16_t first, last, held[MENDUVO_NAMES];
} Thread;

/* Adds a line to the end of a thread, and prints its constraint 4. */
static void add(Thread *thread, const uint16_t line[8]) {
    const uint16_t number = (uint16_t)(record_count + 1);
    MenduvoCopies copies = menduvo_take_line(GLOBALS, MUTEXES, number, line, thread->held);
    if (copies.refusal != 0) {
        fprintf(stderr, "builder: record %u: refusal %u, place %u: %s\n", number, copies.refusal, copies.place,
                menduvo_refusal_text(copies.refusal));
        exit(2);
    }
    printf("4 %u %u %u %u %u\n", number, copies.guard, copies.a, copies.b, copies.target);
    memcpy(records[record_count++], line, sizeof records[0]);
    /* Only now the line before it has its next number. */
    if (thread->last == 0) thread->first = number;
    else records[thread->last - 1][NEXT] = number;
    thread->last = number;
}

/* Prints what is held for the items, which stand after the 16 locals. */
static void tell_items(const Thread *thread) {
    printf("held for the items:");
    for (size_t item = 0; item < ITEMS; item++) printf(" %u", thread->held[16 + item]);
    printf("\n");
}

/* Takes the command, and clears it. */
static void build_controller(Thread *thread) {
    add(thread, LINE([KIND] = LOCK, [TARGET] = COMMANDS));
    add(thread, LINE([KIND] = LOAD, [TARGET] = SEEN, [A] = COMMAND));
    add(thread, LINE([KIND] = STORE, [TARGET] = TAKEN, [A] = SEEN));
    add(thread, LINE([KIND] = STORE, [TARGET] = COMMAND, [A] = CONSTANT));
    add(thread, LINE([KIND] = UNLOCK, [TARGET] = COMMANDS));
}

/* Gives the command, and asserts that it waits or was taken. */
static void build_panel(Thread *thread) {
    add(thread, LINE([KIND] = LOCK, [TARGET] = COMMANDS));
    add(thread, LINE([KIND] = STORE, [TARGET] = COMMAND, [A] = CONSTANT, [C] = 2));
    add(thread, LINE([KIND] = UNLOCK, [TARGET] = COMMANDS));
    add(thread, LINE([KIND] = LOAD, [TARGET] = WAITS, [A] = COMMAND));
    add(thread, LINE([KIND] = COMPUTE, [TARGET] = WAITS, [OP] = EQUAL, [A] = WAITS, [B] = CONSTANT, [C] = 2));
    add(thread, LINE([KIND] = LOAD, [TARGET] = WAS_TAKEN, [A] = TAKEN));
    add(thread, LINE([KIND] = COMPUTE, [TARGET] = WAS_TAKEN, [OP] = EQUAL, [A] = WAS_TAKEN, [B] = CONSTANT, [C] = 2));
    add(thread, LINE([KIND] = COMPUTE, [TARGET] = KEPT, [OP] = OR, [A] = WAITS, [B] = WAS_TAKEN));
    add(thread, LINE([KIND] = ASSERT, [A] = KEPT));
}

/* Writes fields of 16 bits, low byte first. */
static void write_fields(const uint16_t *fields, size_t count, FILE *file) {
    for (size_t i = 0; i < count; i++) {
        fputc(fields[i] & 0xff, file);
        fputc(fields[i] >> 8, file);
    }
}

int main(int argc, char **argv) {
    Thread threads[THREADS] = {0};
    if (argc != 2) {
        fprintf(stderr, "builder: usage: builder CASE\n");
        return 3;
    }
    build_controller(&threads[0]);
    tell_items(&threads[0]);
    build_panel(&threads[1]);
    tell_items(&threads[1]);

    /* Both globals are 0 at the start, and two threads are absent. */
    const uint16_t header[16] = {THREADS, SWITCHES, GLOBALS, MUTEXES, threads[0].first, threads[1].first};
    FILE *file = fopen(argv[1], "wb");
    if (file != NULL) {
        write_fields(header, 16, file);
        for (size_t i = 0; i < record_count; i++) write_fields(records[i], 8, file);
    }
    if (file == NULL || ferror(file) || fclose(file) != 0) {
        fprintf(stderr, "builder: %s: %s\n", argv[1], strerror(errno));
        return 3;
    }
    return 0;
}
