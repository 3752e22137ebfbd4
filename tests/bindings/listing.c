/* The listing program in C, over bindings/menduvo.h: a case on standard input, its constraints on standard output. */
#include "menduvo.h"
#include <stdio.h>

int main(void) {
    static uint8_t bytes[MENDUVO_MOST_CASE_BYTES + 1];
    static uint16_t table[MENDUVO_MOST_TABLE_NUMBERS];
    size_t length = fread(bytes, 1, sizeof bytes, stdin);
    MenduvoNumbers numbers = menduvo_encode(bytes, length, table, MENDUVO_MOST_TABLE_NUMBERS);
    if (numbers.refusal != 0) {
        printf("%u %u\n", numbers.refusal, numbers.place);
        return 2;
    }
    printf("%u %u\n", numbers.first, numbers.second);
    for (size_t row = 0; row < numbers.first; row++) {
        const uint16_t *c = table + 6 * row;
        printf("%u %u %u %u %u %u\n", c[0], c[1], c[2], c[3], c[4], c[5]);
    }
    return 0;
}
