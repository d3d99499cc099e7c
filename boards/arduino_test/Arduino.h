// As much of Arduino's core as the library and its sketch use, over a board of boards/ with the loop that waits: to compile and run a sketch where
// no core is.
#ifndef ARDUINO_H
#define ARDUINO_H
#include <stddef.h>
#include <stdint.h>
struct Stream {
    virtual int available() = 0;
    virtual int read() = 0;
    virtual size_t write(const uint8_t *bytes, size_t len) = 0;
};
struct HardwareSerial : Stream {
    void begin(unsigned long) {}
    int available() override;
    int read() override;
    size_t write(const uint8_t *bytes, size_t len) override;
};
extern HardwareSerial Serial;
enum { LOW, HIGH, OUTPUT, LED_BUILTIN = 13 };
unsigned long millis();
void pinMode(int pin, int mode);
void digitalWrite(int pin, int value);
char *ultoa(unsigned long number, char *text, int base);
#endif
