// The demo: the buttons A and B, the matrix of LEDs and the temperature of the chip as values of the page (folder site). A link of the page shows
// a picture on the matrix, and so do the buttons: A the one before, B the next. A LED that is touched on the page is switched.
#include "step.h"
#include "text.h"

#define REG(at) (*(volatile unsigned *)(unsigned long)(at))
enum { A_IS_DOWN, A_COUNT, B_IS_DOWN, B_COUNT, LEDS, TEMPERATURE };                     // the values of the pages
enum { TIMER = 0x40009000, START = TIMER, DONE = TIMER + 0x140, SHORTS = TIMER + 0x200, INTERRUPT = TIMER + 0x304, BITS = TIMER + 0x508,
       DIVISOR = TIMER + 0x510, END = TIMER + 0x540, TIMER_LINE = 9 };
enum { SENSOR = 0x4000c000, MEASURE = SENSOR, STOP = SENSOR + 4, MEASURED = SENSOR + 0x100, QUARTERS = SENSOR + 0x508 };
enum { PINS = 0x50000000, OUT = PINS + 0x504, IN = PINS + 0x510, FORM = PINS + 0x700, OUTPUT = 1, INPUT = 0 };
enum { ROWS = 3, COLUMNS = 9, FIRST_ROW = 13, FIRST_COLUMN = 4, STEADY = 10 };
static const unsigned char button_pins[2] = {17, 26};                                   // low while the button is down

// A picture is a number: its five digits to the base 32 are the rows, each with a bit for each LED, as one sees them.
#define ROWS_OF(a, b, c, d, e) ((a) << 20 | (b) << 15 | (c) << 10 | (d) << 5 | (e))
enum { PICTURES = 4 };
static const struct { const char *file; unsigned leds; } pictures[PICTURES] = {
    {"/off.html", 0},
    {"/heart.html", ROWS_OF(012, 037, 037, 016, 004)},
    {"/smile.html", ROWS_OF(012, 012, 000, 021, 016)},
    {"/duck.html", ROWS_OF(014, 034, 017, 016, 000)},
};

// The wires: LED 5 * row + column of what one sees is at row / 10 and column % 10 of the matrix.
static const unsigned char wires[25] = {
    00 + 1, 10 + 4, 00 + 2, 10 + 5, 00 + 3,     20 + 4, 20 + 5, 20 + 6, 20 + 7, 20 + 8,     10 + 2, 00 + 9, 10 + 3, 20 + 9, 10 + 1,
    00 + 8, 00 + 7, 00 + 6, 00 + 5, 00 + 4,     20 + 3, 10 + 7, 20 + 1, 10 + 6, 20 + 2};

static unsigned lit[ROWS];                                     // the pins of each row: the row is high, and the columns of its LEDs are low
static volatile unsigned counts[2];                            // how often each button was pressed
static volatile unsigned char is_down[2] = {1, 1};             // so what is down at the start was not pressed

static void show(unsigned leds) {
    unsigned all = ((1u << COLUMNS) - 1) << FIRST_COLUMN;
    for (unsigned row = 0; row < ROWS; row++) lit[row] = all | 1u << (FIRST_ROW + row);
    for (unsigned led = 0; led < 25; led++)
        if (leds >> (24 - led) & 1) lit[wires[led] / 10] &= ~(1u << (FIRST_COLUMN - 1 + wires[led] % 10));
}

// Each 2 ms: the next row of the matrix, and a look at the buttons, which bounce.
void interrupt_beat(void) {
    static unsigned row;
    static unsigned char same[2];
    REG(DONE) = 0;
    row = row + 1 < ROWS ? row + 1 : 0;
    REG(OUT) = (REG(OUT) & ~(((1u << (ROWS + COLUMNS)) - 1) << FIRST_COLUMN)) | lit[row];
    for (unsigned button = 0; button < 2; button++) {
        unsigned char now = !(REG(IN) >> button_pins[button] & 1);
        same[button] = now == is_down[button] ? 0 : same[button] + 1;
        if (same[button] < STEADY) continue;
        is_down[button] = now;
        counts[button] += now;
        events++;
    }
}

static void start(void) {
    for (unsigned pin = FIRST_COLUMN; pin < FIRST_COLUMN + COLUMNS + ROWS; pin++) REG(FORM + 4 * pin) = OUTPUT;
    for (unsigned button = 0; button < 2; button++) REG(FORM + 4 * button_pins[button]) = INPUT;
    REG(BITS) = 0;                                             // 16
    REG(DIVISOR) = 4;                                          // 1 MHz
    REG(END) = 2000;
    REG(SHORTS) = 1;
    REG(INTERRUPT) = 1 << 16;
    REG(START) = 1;
    REG(0xE000E100) = 1 << TIMER_LINE;
    REG(MEASURE) = 1;
}

// The sensor is of quarters of a degree, with 10 bits and a sign.
static void look_at_temperature(void) {
    char text[UIP_MAX_VALUE];
    if (!REG(MEASURED)) return;
    int quarters = (int)(REG(QUARTERS) << 22) >> 22;
    REG(MEASURED) = 0;
    REG(STOP) = 1;
    uip_set_value(&device, TEMPERATURE, text, tenths_text(text, quarters * 10 / 4));
    REG(MEASURE) = 1;
}

static void set_number(size_t value, unsigned number) {
    char text[UIP_MAX_VALUE];
    uip_set_value(&device, value, text, decimal(text, number));
}

// The picture of a link that was followed, or that a visitor has drawn; or the old one.
static unsigned requested(unsigned leds, unsigned *picture) {
    static unsigned hits[PICTURES], drawn;
    unsigned char query[UIP_MAX_QUERY];
    unsigned number;
    for (unsigned it = 0; it < PICTURES; it++) {
        size_t len = 0;
        while (pictures[it].file[len]) len++;
        number = uip_hits(&device, pictures[it].file, len).number;
        if (number != hits[it]) leds = pictures[*picture = it].leds;
        hits[it] = number;
    }
    uip_query_text got = uip_query(&device, UIP_TEXT("/draw.html"), query, sizeof query);
    if (got.hit != drawn && number_in(query, got.len, "leds", &number) && number < 1 << 25) leds = number;
    drawn = got.hit;
    return leds;
}

void work(void) {
    static unsigned picture, leds, shown = 1, seen[2];
    static int is_started;
    if (!is_started) start();
    is_started = 1;
    leds = requested(leds, &picture);
    for (unsigned button = 0; button < 2; button++) {
        unsigned pressed = counts[button] - seen[button];
        seen[button] += pressed;
        picture = (picture + (button ? 1 : PICTURES - 1) * pressed) % PICTURES;
        if (pressed) leds = pictures[picture].leds;
        uip_set_value(&device, button ? B_IS_DOWN : A_IS_DOWN, counts[button] && is_down[button] ? "1" : "0", 1);
        set_number(button ? B_COUNT : A_COUNT, seen[button]);
    }
    look_at_temperature();
    if (leds == shown) return;
    show(shown = leds);
    set_number(LEDS, leds);
}
