// Numbers that follow from a seed alone (xorshift64*), so that each run can be made again.
#include "parts.h"

static unsigned long state;

void random_begin(unsigned long seed) { state = seed * 0x9e3779b97f4a7c15ul + 0x1234567; if (state == 0) state = 1; }

unsigned long random_next(void) {
    state ^= state >> 12;
    state ^= state << 25;
    state ^= state >> 27;
    return state * 0x2545f4914f6cdd1dul >> 16;
}

unsigned below(unsigned count) { return (unsigned)(random_next() % count); }

unsigned between(unsigned least, unsigned most) { return least + below(most - least + 1); }

int chance(unsigned percent) { return below(100) < percent; }

void random_bytes(byte *to, size_t len) {
    for (size_t at = 0; at < len; at++) to[at] = (byte)random_next();
}
