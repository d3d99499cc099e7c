#include "Arduino.h"
#include <poll.h>
#include <stdio.h>
#include <stdlib.h>
#include <sys/ioctl.h>
#include <time.h>
#include <unistd.h>

HardwareSerial Serial;

// The bytes that wait. Some calls after the end of the input it ends the program.
int HardwareSerial::available() {
    static int calls;
    pollfd line = {0, POLLIN, 0};
    int count = 0;
    ioctl(0, FIONREAD, &count);
    if (!count && poll(&line, 1, 1) > 0 && ++calls > 20) exit(0);
    return count;
}
int HardwareSerial::read() {
    unsigned char byte;
    return ::read(0, &byte, 1) == 1 ? byte : -1;
}
size_t HardwareSerial::write(const uint8_t *bytes, size_t len) {
    ssize_t count = ::write(1, bytes, len);
    return count > 0 ? (size_t)count : 0;
}
unsigned long millis() {
    timespec now;
    clock_gettime(CLOCK_MONOTONIC, &now);
    return (unsigned long)(now.tv_sec * 1000 + now.tv_nsec / 1000000);
}
void pinMode(int, int) {}
void digitalWrite(int pin, int value) { fprintf(stderr, "pin %d is %d\n", pin, value); }
char *ultoa(unsigned long number, char *text, int) {
    snprintf(text, 12, "%lu", number % 10000000000ul);
    return text;
}
void setup();
void loop();
int main() {
    setup();
    for (;;) loop();
}
