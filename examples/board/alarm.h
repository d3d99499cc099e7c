// The alarm level of a device with a state: a number from 0 to 100 that the form of examples/state sets. state.c of this folder and that
// of examples/linux-c share this file.
#ifndef ALARM_H
#define ALARM_H

#include "uip.h"

enum { MOST_LIMIT = 100, NO_LIMIT };

// Returns the number of "limit=N", after which the text ends or "&" follows, or NO_LIMIT for any other text. N is one to three digits, and
// at most 100.
static unsigned limit_in(const unsigned char *query, size_t len) {
    static const char field[] = "limit=";
    size_t first = sizeof field - 1, at = first;
    unsigned limit = 0;
    if (len <= first) return NO_LIMIT;
    for (size_t sign = 0; sign < first; sign++)
        if (query[sign] != field[sign]) return NO_LIMIT;
    for (; at < len && query[at] != '&'; at++) {
        if (query[at] < '0' || query[at] > '9' || at == first + 3) return NO_LIMIT;
        limit = limit * 10 + (query[at] - '0');
    }
    return at > first && limit <= MOST_LIMIT ? limit : NO_LIMIT;
}

// Reads a form that arrived after the last call, and sets `limit` if its text is good. It is for one device.
static void read_form(uip_device *device, unsigned *limit) {
    static unsigned last;    // the hit of the last query
    unsigned char bytes[UIP_MAX_QUERY];
    uip_query_text query = uip_query(device, UIP_TEXT("/alarm.shtml"), bytes, sizeof bytes);
    if (!query.hit || query.hit == last) return;
    last = query.hit;
    unsigned number = limit_in(bytes, query.len);
    if (number != NO_LIMIT) *limit = number;
}

#endif
