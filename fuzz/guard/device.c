// A device of the library by lines of text, for attacks.mjs and known.mjs: one command a line comes in, and one answer a line goes out.
//
//     open OWN IMAGE       protect SECRET       input DATAGRAM       tick SLOT       rows       hits NAME
//
// All arguments are in hexadecimal, except SLOT, which is one digit. The answer is a datagram that was sent, or "-"; `rows` answers with the
// ten rows. After a mistake it answers "? WHAT", and takes no more commands. The lines come by standard input and output, or, with m4.c, by
// the port of a Cortex-M4.
#include "uip.h"

enum { LONGEST = 1 << 15 };
static char line[LONGEST];
static unsigned char image[LONGEST / 2], bytes[LONGEST / 2], out[UIP_MAX_DATAGRAM];
static uip_device device = UIP_INIT;

#ifdef M4
int get_byte(void);
void put_byte(int byte);
static void end_answer(void) { put_byte('\n'); }
#else
#include <stdio.h>
static int get_byte(void) { return getchar(); }
static void put_byte(int byte) { putchar(byte); }
static void end_answer(void) { putchar('\n'), fflush(stdout); }
#endif

static void put_text(const char *text) { while (*text) put_byte(*text++); }

static void put_number(unsigned n) {
    if (n > 9) put_number(n / 10);
    put_byte('0' + (int)(n % 10));
}

static void put_hex(unsigned char byte) {
    static const char digits[] = "0123456789abcdef";
    put_byte(digits[byte >> 4]), put_byte(digits[byte & 15]);
}

static void fail(const char *what) {
    put_text("? "), put_text(what), end_answer();
    while (get_byte() >= 0) {}
}

static int is_digit(char sign) { return (sign >= '0' && sign <= '9') || (sign >= 'a' && sign <= 'f'); }
static unsigned value_of(char sign) { return (unsigned)(sign <= '9' ? sign - '0' : sign - 'a' + 10); }

// The bytes of a text in hexadecimal; returns how many there are.
static size_t read_bytes(const char *text, unsigned char *to) {
    size_t count = 0;
    for (; is_digit(text[0]) && is_digit(text[1]); text += 2) to[count++] = (unsigned char)(value_of(text[0]) << 4 | value_of(text[1]));
    return count;
}

static void answer(uip_result result) {
    if (result.status != UIP_OK) { fail("a call was refused"); return; }
    if (!result.written) put_byte('-');
    for (size_t at = 0; at < result.written; at++) put_hex(out[at]);
}

static void open_device(const char *words) {
    unsigned char own[4];
    if (read_bytes(words, own) != 4) { fail("`open` has an address and an image"); return; }
    if (uip_open(&device, image, read_bytes(words + 9, image), own).status != UIP_OK) fail("the image was refused");
}

static void protect(const char *secret) {
    if (read_bytes(secret, bytes) != 16 || uip_protect(&device, bytes) != UIP_OK) fail("the secret was refused");
}

static void rows(void) {
    for (size_t slot = 0; slot < UIP_SLOTS; slot++) {
        uip_row row = uip_connection(&device, slot);
        put_number(row.state), put_byte(',');
        for (unsigned k = 0; k < 4; k++) put_number(row.peer[k]), put_byte(k < 3 ? '.' : ',');
        put_number(row.port), put_byte(' ');
    }
}

static int is_word(const char *command, const char *word) {
    while (*word && *command == *word) command++, word++;
    return !*word;
}

static void obey(const char *command) {
    if (is_word(command, "open ")) open_device(command + 5);
    else if (is_word(command, "protect ")) protect(command + 8);
    else if (is_word(command, "input ")) answer(uip_input(&device, bytes, read_bytes(command + 6, bytes), out, sizeof out));
    else if (is_word(command, "tick ")) answer(uip_periodic_datagram(&device, value_of(command[5]), out, sizeof out));
    else if (is_word(command, "rows")) rows();
    else if (is_word(command, "hits ")) put_number(uip_hits(&device, bytes, read_bytes(command + 5, bytes)).number);
    else fail("no such command");
}

int main(void) {
    for (;;) {
        size_t len = 0;
        for (int byte; (byte = get_byte()) != '\n';) {
            if (byte < 0) return 0;
            if (len + 1 < LONGEST) line[len++] = (char)byte;
        }
        line[len] = 0;
        obey(line);
        end_answer();
    }
}
