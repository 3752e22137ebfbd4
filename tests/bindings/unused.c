/* Another file of a program that has the header, and uses nothing of it. */
#include "menduvo.h"

int unused(void);

int unused(void) { return 0; }
