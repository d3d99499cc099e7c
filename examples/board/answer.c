#include "answer.h"

size_t answer_line(char *line, char *reply, unsigned *last);                  // console.c
size_t answer_frame(const unsigned char *bytes, size_t len, unsigned char *reply, size_t *taken, unsigned *last);    // modbus.c

// The length of the first line with its line feed, in whose place a 0 is put. 0 if no line is whole.
static size_t whole_line(unsigned char *bytes, size_t len) {
    for (size_t at = 0; at < len; at++) {
        if (bytes[at] != '\n') continue;
        bytes[at] = 0;
        return at + 1;
    }
    return 0;
}

size_t answer(const uip_received *it, unsigned char *bytes, unsigned char *reply, size_t *len, unsigned *last) {
    size_t taken = 0;
    if (it->status != UIP_OK || !it->ready || !it->len) return 0;
    if (it->port == MODBUS_PORT) *len = answer_frame(bytes, it->len, reply, &taken, last);
    else if ((taken = whole_line(bytes, it->len)) != 0) *len = answer_line((char *)bytes, (char *)reply, last);
    return taken;
}
