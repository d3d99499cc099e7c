// The generator of random numbers of an STM32F2, F4 or L4. RANDOM_ON, the register of its clock, and RANDOM_BIT, its bit there, are defined before.
enum { RANDOM = 0x50060800, RANDOM_STATE = RANDOM + 4, RANDOM_WORD = RANDOM + 8, GENERATES = 1 << 2, DRAWN = 1, ERRORS = 3 << 5 | 3 << 1 };

// The second of two words, which have to differ: so the first one after the start is never taken, as its manual requires.
static int random_byte(void) {
    unsigned words[2];
    REG(RANDOM_ON) |= RANDOM_BIT;
    REG(RANDOM) = GENERATES;
    for (unsigned at = 0; at < 2; at++) {
        if (!wait_for(RANDOM_STATE, DRAWN | ERRORS, DRAWN)) return -1;
        words[at] = REG(RANDOM_WORD);
    }
    return words[0] == words[1] ? -1 : (int)(words[1] & 0xff);
}
