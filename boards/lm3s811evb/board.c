// Stellaris LM3S811 Evaluation Board. UART0 is on the USB of the board, by PA0 and PA1. The lamp is the LED at PC5.
#define CLOCK 50000000
#define LINE 5
#define LINES [16 + LINE] = interrupt_port
#include "../cortex_m.h"
#include "../pl011.h"

enum { SYSTEM = 0x400fe000, CLOCK_STATE = SYSTEM + 0x50, CLOCK_SET = SYSTEM + 0x60, PORTS_ON = SYSTEM + 0x104, PINS_ON = SYSTEM + 0x108 };
enum { PINS_A = 0x40004000, PINS_C = 0x40006000, PIN_OUT = 0x400, PIN_PORT = 0x420, PIN_DIGITAL = 0x51c };
enum { INTERNAL = 1 << 4, BYPASS = 1 << 11, OFF = 1 << 13, DIVIDED = 1 << 22, BY_4 = 3 << 23, CRYSTAL_6 = 11 << 6, LOCKED = 1 << 6 };

static void start(void) {
    REG(CLOCK_SET) = OFF | BYPASS | CRYSTAL_6 | INTERNAL;      // the crystal starts
    for (volatile unsigned wait = 0; wait < 20000; wait++) {}
    REG(CLOCK_SET) = BYPASS | CRYSTAL_6 | DIVIDED | BY_4;
    if (wait_for(CLOCK_STATE, LOCKED, LOCKED)) REG(CLOCK_SET) = CRYSTAL_6 | DIVIDED | BY_4;
    REG(PORTS_ON) |= 1;
    REG(PINS_ON) |= 1 | 1 << 2;
    wait_for(PINS_ON, 0, 0);
    REG(PINS_A + PIN_PORT) |= 3;
    REG(PINS_A + PIN_DIGITAL) |= 3;
    REG(PINS_C + PIN_OUT) |= 1 << 5;
    REG(PINS_C + PIN_DIGITAL) |= 1 << 5;
    port_on();
    ENABLE_LINE(LINE);
}

void lamp(int is_on) { REG(PINS_C + (1 << 5 << 2)) = is_on ? 1 << 5 : 0; }
