// Raspberry Pi Pico: an RP2040 (Cortex-M0+), from its crystal of 12 MHz, without a PLL. The port is UART0, by GP0 (sends) and GP1: its USB socket
// has no serial port of its own. The lamp is GP25. (On a Pico W the lamp is at the radio.)
#define CLOCK 12000000
#define LINE 20
#define LINES [16 + LINE] = interrupt_port
#define HAS_RANDOM
#include "../cortex_m.h"
#define UART 0x40034000
#include "../pl011.h"

enum { SET = 0x2000, CLEAR = 0x3000 };                     // aliases of a register that set or clear its bits
enum { RESETS = 0x4000c000, RESET_DONE = RESETS + 8, IO_BANK = 1 << 5, PADS = 1 << 8, UART0 = 1 << 22 };
enum { CRYSTAL = 0x40024000, CRYSTAL_STATE = CRYSTAL + 4, CRYSTAL_DELAY = CRYSTAL + 12, MHZ_1_TO_15 = 0xaa0, CRYSTAL_ON = 0xfab << 12 };
enum { CLOCKS = 0x40008000, REFERENCE = CLOCKS + 0x30, REFERENCE_IS = CLOCKS + 0x38, BY_CRYSTAL = 2, SYSTEM = CLOCKS + 0x3c,
       PERIPHERALS = CLOCKS + 0x48, PERIPHERALS_ON = 1 << 11 };
enum { PINS = 0x40014000, PIN_UART = 2, PIN_GPIO = 5, LED = 25, OUT_SET = 0xd0000014, OUT_CLEAR = 0xd0000018, OUTPUT_SET = 0xd0000024 };
enum { RING_OSCILLATOR_BIT = 0x4006001c, DRAWS = 32 };
#define PIN_CONTROL(pin) (PINS + 8 * (pin) + 4)

static void start(void) {
    REG(CRYSTAL) = MHZ_1_TO_15;
    REG(CRYSTAL_DELAY) = 47;                                   // 1 ms: times 256, at 12 MHz
    REG(CRYSTAL + SET) = CRYSTAL_ON;
    wait_for(CRYSTAL_STATE, 1u << 31, 1u << 31);
    REG(REFERENCE) = BY_CRYSTAL;
    wait_for(REFERENCE_IS, 1 << BY_CRYSTAL, 1 << BY_CRYSTAL);
    REG(SYSTEM) = 0;                                           // the system's clock is the reference
    REG(PERIPHERALS) = PERIPHERALS_ON;                         // and so is that of the port
    REG(RESETS + CLEAR) = IO_BANK | PADS | UART0;
    wait_for(RESET_DONE, IO_BANK | PADS | UART0, IO_BANK | PADS | UART0);
    REG(PIN_CONTROL(0)) = PIN_UART;
    REG(PIN_CONTROL(1)) = PIN_UART;
    REG(PIN_CONTROL(LED)) = PIN_GPIO;
    REG(OUTPUT_SET) = 1u << LED;
    port_on();
    ENABLE_LINE(LINE);
}

// Of the ring oscillator, which is not the clock here. Its datasheet promises no security (section 2.17.5), so each bit is of many draws.
static int random_byte(void) {
    unsigned byte = 0;
    for (unsigned draw = 0; draw < 8 * DRAWS; draw++) byte = (byte << 1 & 0xff) ^ byte >> 7 ^ (REG(RING_OSCILLATOR_BIT) & 1);
    return (int)byte;
}

void lamp(int is_on) { REG(is_on ? OUT_SET : OUT_CLEAR) = 1u << LED; }
