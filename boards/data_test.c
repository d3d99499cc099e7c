// For test.sh: pages of a device that answers nothing if its variables begin without their initial values.
static volatile unsigned given = 0x12345678;

void work(void) { while (given != 0x12345678) {} }
