// Emcraft SmartFusion2 SOM: an M2S010 (Cortex-M3), whose clocks its FPGA sets. The port is MMUART_0, of the kind 16550. It has no lamp here.
#define CLOCK 142000000
#define PORT_CLOCK 71000000
#define LINE 10
#define LINES [16 + LINE] = interrupt_port
#include "../cortex_m.h"

enum { PORT = 0x40000000, DATA = PORT, INTERRUPTS = PORT + 4, QUEUES = PORT + 8, FORM = PORT + 12, STATE = PORT + 20 };
enum { RECEIVED = 1, SEND_EMPTY = 1 << 5, BITS_8 = 3, DIVISOR = 1 << 7, BY = (PORT_CLOCK + 8 * 115200) / (16 * 115200) };

static int received(void) { return REG(STATE) & RECEIVED; }
static unsigned char take(void) { return (unsigned char)REG(DATA); }
static int can_send(void) { return (REG(STATE) & SEND_EMPTY) != 0; }
static void put(unsigned char byte) { REG(DATA) = byte; }
static void port_interrupts(int receives, int sends) { REG(INTERRUPTS) = (receives ? 1 : 0) | (sends ? 2 : 0); }

static void start(void) {
    REG(FORM) = BITS_8 | DIVISOR;
    REG(DATA) = BY & 0xff;
    REG(INTERRUPTS) = BY >> 8;
    REG(FORM) = BITS_8;
    REG(QUEUES) = 7;
    ENABLE_LINE(LINE);
}

void lamp(int is_on) { (void)is_on; }
