// What app.c and both.c answer: a console at port 5025 and Modbus/TCP at port 502, those of examples/linux-app.
#ifndef ANSWER_H
#define ANSWER_H

#include "uip_app.h"

enum { CONSOLE_PORT = 5025, MODBUS_PORT = 502 };

// Answers the first line or Modbus frame of the bytes that a connection received, if it is whole and a message can be sent: writes the
// reply, at most UIP_MAX_MESSAGE bytes, and its length, and sets `last` if the connection closes after it. Returns how many bytes this
// answers, else 0. The bytes are changed.
size_t answer(const uip_received *it, unsigned char *bytes, unsigned char *reply, size_t *len, unsigned *last);

#endif
