// The UART PL011 of Arm as the port, as the LM3S and the RP2040 have it. Before it a board.c defines UART, if it is not at 0x4000c000, and CLOCK, the
// rate of its bus. Its start calls port_on.
#ifndef UART
#define UART 0x4000c000
#endif

enum { DATA = UART, FLAGS = UART + 0x18, WHOLE = UART + 0x24, FRACTION = UART + 0x28, FORM = UART + 0x2c, CONTROL = UART + 0x30,
       LEVELS = UART + 0x34, MASK = UART + 0x38, CLEAR_CAUSE = UART + 0x44 };
enum { RECEIVE_EMPTY = 1 << 4, SEND_FULL = 1 << 5, RECEIVED = 1 << 4, SEND = 1 << 5, RECEIVE_TIMEOUT = 1 << 6 };

static int received(void) { return !(REG(FLAGS) & RECEIVE_EMPTY); }
static unsigned char take(void) { return (unsigned char)REG(DATA); }
static int can_send(void) { return !(REG(FLAGS) & SEND_FULL); }
static void put(unsigned char byte) { REG(DATA) = byte; }

static void port_interrupts(int receives, int sends) {
    if (!sends) REG(CLEAR_CAUSE) = SEND;
    REG(MASK) = (receives ? RECEIVED | RECEIVE_TIMEOUT : 0) | (sends ? SEND : 0);
}

static void port_on(void) {
    REG(WHOLE) = CLOCK / 16 / 115200;
    REG(FRACTION) = (CLOCK * 4u + 57600) / 115200 % 64;
    REG(FORM) = 3 << 5 | 1 << 4;                               // 8 bits, with its queues
    REG(LEVELS) = 0;                                           // interrupt early
    REG(CONTROL) = 1 << 9 | 1 << 8 | 1;
}
