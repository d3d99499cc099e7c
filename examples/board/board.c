// The board: its serial port (PL011), its clock (the generic timer) and its interrupt controller (GICv2). Compiled with LOOP_WAITS, and with the
// general registers alone, since the interrupt saves no others.
#include "../../boards/shared.h"

enum { CONTROLLER = 0x200000, PORT_AT = 0x400000, CLOCK = 24000000 };    // as the map of start.S has them; the clock of the port
#define UART PORT_AT
#ifdef LINE_RATE
#define can_send port_can_send
#endif
#include "../../boards/pl011.h"

enum { ENABLE = CONTROLLER + 0x100, TARGETS = CONTROLLER + 0x800, ON = CONTROLLER + 0x10000, LEAST = CONTROLLER + 0x10004 };
enum { ACKNOWLEDGE = CONTROLLER + 0x1000c, END = CONTROLLER + 0x10010 };
enum { CLOCK_LINE = 30, PORT_LINE = 33 };

static unsigned long clock_now(void) {
    unsigned long now;
    __asm__ volatile("isb; mrs %0, cntpct_el0" : "=r"(now));
    return now;
}

static unsigned long clock_rate(void) {
    unsigned long rate;
    __asm__ volatile("mrs %0, cntfrq_el0" : "=r"(rate));
    return rate;
}

static void clock_wakes_at(unsigned long time) { __asm__ volatile("msr cntp_cval_el0, %0; isb" : : "r"(time)); }
static void interrupts_masked(void) { __asm__ volatile("msr daifset, #2" : : : "memory"); }
static void interrupts_unmasked(void) { __asm__ volatile("msr daifclr, #2" : : : "memory"); }
static void sleep(void) { __asm__ volatile("dsb sy; wfi"); }

#ifdef LINE_RATE    // bytes a second: a real line takes its time, qemu's does not
#undef can_send
static int can_send(void) {
    static unsigned long free_at;
    if (clock_now() < free_at || !port_can_send()) return 0;
    free_at = clock_now() + clock_rate() / LINE_RATE;
    return 1;
}
#endif

static void start(void) {
    REG(CONTROL) = 0;
    port_on();
    port_interrupts(1, 0);
    (void)take();                          // a byte from before the port was open: unread, it may block all further ones
    REG(ENABLE) = 1u << CLOCK_LINE;
    REG(ENABLE + 4) = 1u << (PORT_LINE - 32);
    ((volatile unsigned char *)(unsigned long)TARGETS)[PORT_LINE] = 1;
    REG(CONTROLLER) = 1;
    REG(LEAST) = 0xff;
    REG(ON) = 1;
    clock_wakes_at(clock_now() + clock_rate() / 2);
    __asm__ volatile("msr cntp_ctl_el0, %0; isb" : : "r"(1ul));
}

void board_start(void) {
    start();
    interrupts_unmasked();
}

// start.S calls it at each interrupt.
void board_interrupt(void) {
    unsigned line = REG(ACKNOWLEDGE);
    serve_port();
    if ((line & 0x3ff) == CLOCK_LINE) {
        unsigned long time;
        __asm__ volatile("mrs %0, cntp_cval_el0" : "=r"(time));
        clock_wakes_at(time + clock_rate() / 2);
        half_second();
    }
    REG(END) = line;
}

// start.S calls it first.
void begin(void) {
    memory_start();
    main();
}
