// The core of Arduino.h over board.h, and what it has of a C library. The memory of malloc is never given back: the sketch opens its device once.
#include "Arduino.h"

extern "C" {
#include "board.h"
void lamp(int is_on);

static unsigned char memory[7000];
static size_t used;

void *malloc(size_t len) {
    void *at = memory + used;
    used += (len + 7) / 8 * 8;
    return used > sizeof memory ? nullptr : at;
}

void free(void *) {}
void abort() { for (;;) {} }
void __cxa_pure_virtual() { abort(); }

size_t strlen(const char *at) {
    size_t len = 0;
    while (at[len]) len++;
    return len;
}

int strcmp(const char *a, const char *b) {
    while (*a && *a == *b) a++, b++;
    return *a - *b;
}
}

HardwareSerial Serial;
int HardwareSerial::available() { return (int)port_waiting().len; }

int HardwareSerial::read() {
    int byte = *port_waiting().at;
    port_taken(1);
    return byte;
}

size_t HardwareSerial::write(const uint8_t *bytes, size_t len) {
    port_send(nullptr, bytes, len);
    return len;
}

unsigned long millis() { return clock_ticks() * 500; }
void pinMode(int, int) {}
void digitalWrite(int, int value) { lamp(value); }

char *ultoa(unsigned long number, char *text, int base) {
    char digits[33];
    int count = 0, at = 0;
    do digits[count++] = "0123456789abcdef"[number % (unsigned)base];
    while (number /= (unsigned)base);
    while (count) text[at++] = digits[--count];
    text[at] = 0;
    return text;
}

void setup();
void loop();
typedef void (*constructor)();
extern constructor __init_array_start[], __init_array_end[];

int main() {
    board_start();
    for (constructor *it = __init_array_start; it < __init_array_end; it++) (*it)();
    setup();
    for (;;) loop();
}
