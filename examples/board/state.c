// The firmware of a device with a state. It serves as main.c does. Before each tick it sets its state as values, which the pages of
// examples/state show. A level is in the place of a sensor. A request of a page of the lamp turns the lamp on or off: a link that is
// followed twice does no more than once. A form sets the alarm level (alarm.h): the pages show whether the level is above it.
#include "alarm.h"
#include "board.h"
#include "uip.h"

extern const unsigned char site_image[], site_image_end[];

enum { NAME, SECONDS, LEVEL, NOTE, LAMP, LIMIT, ALARM };    // the numbers of the values

typedef struct { char bytes[UIP_MAX_VALUE]; size_t len; } text;

static uip_device device = UIP_INIT;
static unsigned char out[32];
static unsigned asked_on, asked_off;          // how often the pages of the lamp had been requested
static unsigned lamp_is_on;
static unsigned level, limit, limit_shown;   // `limit` is 80 at first (main)

static void add(text *value, const char *words) {
    for (; *words && value->len < sizeof value->bytes; words++) value->bytes[value->len++] = *words;
}

static void add_number(text *value, unsigned number) {
    char digits[11];
    size_t at = sizeof digits - 1;
    digits[at] = 0;
    do digits[--at] = (char)('0' + number % 10); while (number /= 10);
    add(value, digits + at);
}

static unsigned give(size_t number, const text *value) { return uip_set_value(&device, number, value->bytes, value->len); }

static unsigned give_words(size_t number, const char *words) {
    text value = {{0}, 0};
    add(&value, words);
    return give(number, &value);
}

// Sets the seconds since the start, and a level that rises from 0 to 100 and falls again in fifty ticks.
static unsigned give_state(unsigned ticks) {
    unsigned place = ticks % 50, is_rising = place < 25;
    level = is_rising ? 4 * place : 4 * (50 - place);
    text seconds = {{0}, 0}, number = {{0}, 0};
    add_number(&seconds, ticks / 2);
    add(&seconds, ticks % 2 ? ".5" : ".0");
    add_number(&number, level);
    text note = number;
    add(&note, is_rising ? " of 100, rising" : " of 100, falling");
    unsigned status = give(SECONDS, &seconds);
    if (status == UIP_OK) status = give(LEVEL, &number);
    if (status == UIP_OK) status = give(NOTE, &note);
    return status;
}

// Turns the lamp on or off if a page of it was requested since the last call, and sets its state.
static unsigned give_lamp(void) {
    static const char on[] = "/lamp-on.html", off[] = "/lamp-off.html";
    unsigned now_on = uip_hits(&device, on, sizeof on - 1).number, now_off = uip_hits(&device, off, sizeof off - 1).number;
    if (now_on != asked_on) lamp_is_on = 1;
    if (now_off != asked_off) lamp_is_on = 0;
    asked_on = now_on;
    asked_off = now_off;
    return give_words(LAMP, lamp_is_on ? "on" : "off");
}

// Sets the alarm level, and whether the level is above it.
static unsigned give_alarm(void) {
    text number = {{0}, 0}, alarm = {{0}, 0};
    add_number(&number, limit);
    add_number(&alarm, level);
    add(&alarm, level > limit ? " is above " : " is not above ");
    add_number(&alarm, limit);
    limit_shown = limit;
    unsigned status = give(LIMIT, &number);
    return status == UIP_OK ? give(ALARM, &alarm) : status;
}

static unsigned give_all(unsigned ticks) {
    unsigned status = give_state(ticks);
    if (status == UIP_OK) status = give_lamp();
    return status == UIP_OK ? give_alarm() : status;
}

// A uip_sink: reads the form of a request, whose reply begins with this piece, and sends the piece.
static void send_piece(void *to, const unsigned char *bytes, size_t len) {
    read_form(&device, &limit);
    port_send(to, bytes, len);
}

int main(void) {
    static const unsigned char own[4] = {10, 0, 0, 1};
    board_start();
    limit = 80;
    unsigned status = uip_open(&device, site_image, (size_t)(site_image_end - site_image), own).status;
    if (status == UIP_OK) status = give_words(NAME, "Lamp & level of the \"virt\" board");
    if (status == UIP_OK) status = give_all(0);
    for (unsigned ticks = 0; status == UIP_OK; board_sleep(ticks)) {
        port_bytes came = port_waiting();
        status = uip_feed_all(&device, came.at, came.len, out, sizeof out, send_piece, 0);
        port_taken(came.len);
        if (status == UIP_OK && limit != limit_shown) status = give_alarm();
        if (status != UIP_OK || !tick_is_due(&ticks)) continue;
        status = give_all(ticks);
        if (status == UIP_OK) status = uip_tick_all(&device, out, sizeof out, port_send, 0);
    }
    return (int)status;
}
