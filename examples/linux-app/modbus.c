// A Modbus/TCP server of 125 holding registers: functions 3 (read), 6 (write one) and 16 (write some), of the Modbus application protocol
// V1.1b3 and Modbus messaging on TCP/IP V1.0b.
#include <string.h>
#include "uip_app.h"

size_t answer_frame(const unsigned char *bytes, size_t len, unsigned char *reply, size_t *taken, unsigned *last);

enum { REGISTERS = 125, HEADER = 7 };

static unsigned registers[REGISTERS];

static unsigned word_at(const unsigned char *at) {
    return (unsigned)at[0] << 8 | at[1];
}

static void put_word(unsigned char *at, unsigned word) {
    at[0] = (unsigned char)(word >> 8);
    at[1] = (unsigned char)word;
}

// Writes the reply to the data of a request, from its function code on. Returns the length.
static size_t answer_data(const unsigned char *data, size_t len, unsigned char *reply) {
    unsigned first = len >= 5 ? word_at(data + 1) : 0, count = len >= 5 ? word_at(data + 3) : 0, i;
    unsigned known = data[0] == 3 || data[0] == 6 || data[0] == 16, fault = known ? 0 : 1;
    memcpy(reply, data, len < 5 ? len : 5);
    if (known && len < 5) fault = 3;
    else if (data[0] == 3) {
        if (count < 1 || count > REGISTERS) fault = 3;
        else if (first + count > REGISTERS) fault = 2;
        else {
            reply[1] = (unsigned char)(2 * count);
            for (i = 0; i < count; i++) put_word(reply + 2 + 2 * i, registers[first + i]);
            return 2 + 2 * (size_t)count;
        }
    } else if (data[0] == 6) {
        if (first >= REGISTERS) fault = 2;
        else registers[first] = count;
    } else if (data[0] == 16) {
        if (count < 1 || count > REGISTERS || len < 6 + 2 * (size_t)count || data[5] != 2 * count) fault = 3;
        else if (first + count > REGISTERS) fault = 2;
        else for (i = 0; i < count; i++) registers[first + i] = word_at(data + 6 + 2 * i);
    }
    if (!fault) return 5;
    reply[0] = data[0] | 0x80;
    reply[1] = (unsigned char)fault;
    return 2;
}

// Writes the reply to the first frame of these bytes, and returns its length. `taken` is the length of the frame, 0 while it is not whole.
// `last` becomes 1 if the bytes are no frame, or one that is longer than a connection stores: the connection closes.
size_t answer_frame(const unsigned char *bytes, size_t len, unsigned char *reply, size_t *taken, unsigned *last) {
    size_t whole, wrote;
    if (len < HEADER) return 0;
    whole = 6 + (size_t)word_at(bytes + 4);
    if (word_at(bytes + 2) != 0 || whole < HEADER + 1 || whole > UIP_MAX_RECEIVED) {
        *taken = len;
        *last = 1;
        return 0;
    }
    if (len < whole) return 0;
    wrote = answer_data(bytes + HEADER, whole - HEADER, reply + HEADER);
    memcpy(reply, bytes, HEADER);
    put_word(reply + 4, (unsigned)wrote + 1);
    *taken = whole;
    return HEADER + wrote;
}
