/* What bindings/menduvo.h has without a library, in C and in C++: the version, and the refusals' texts, a line each. */
#include "menduvo.h"
#include <stdio.h>

#define ONE_MORE(number, text) +1

int main(void) {
    /* 0, the refusals, and the number after the last one. */
    const unsigned after = 0 MENDUVO_REFUSALS(ONE_MORE) + 1;
    printf("%s\n", MENDUVO_VERSION);
    printf("%d.%d.%d\n", MENDUVO_VERSION_MAJOR, MENDUVO_VERSION_MINOR, MENDUVO_VERSION_PATCH);
    for (unsigned number = 0; number <= after; number++) printf("%u %s\n", number, menduvo_refusal_text((uint16_t)number));
    return 0;
}
