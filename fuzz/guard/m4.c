// A Cortex-M4 without anything else: the start, and the port of qemu's board mps2-an386, for device.c. boards/link.ld places it.
#define REG(at) (*(volatile unsigned *)(at))
enum { DATA = 0x40004000, STATE = 0x40004004, CONTROL = 0x40004008, DIVISOR = 0x40004010, SEND_FULL = 1, RECEIVED = 2, BOTH_ON = 3 };

int get_byte(void) {
    while (!(REG(STATE) & RECEIVED)) {}
    return (int)(REG(DATA) & 255);
}

void put_byte(int byte) {
    while (REG(STATE) & SEND_FULL) {}
    REG(DATA) = (unsigned)byte;
}

extern unsigned char __data_from[], __data_start[], __data_end[], __bss_start[], __bss_end[], __stack_top[];
int main(void);

static void fault(void) { for (;;) {} }

void _start(void) {
    for (unsigned char *to = __data_start, *from = __data_from; to < __data_end;) *to++ = *from++;
    for (unsigned char *at = __bss_start; at < __bss_end;) *at++ = 0;
    REG(DIVISOR) = 16;
    REG(CONTROL) = BOTH_ON;
    main();
    fault();
}

__attribute__((section(".start"), used)) static void (*const vectors[16])(void) = {
    (void (*)(void))__stack_top, _start, fault, fault, fault, fault, fault};
