/*
 * SPDX-License-Identifier: MIT OR Apache-2.0
 */
#include "Lowunbisa.h"
#include <stdlib.h>
#include <string.h>

// The memory of the library (uip.h, rattle_alloc), from malloc, which aligns for each type. It never reallocates.
extern "C" {
uip_block rattle_alloc(size_t len, size_t align) {
    static unsigned char none;
    void *at = malloc(len ? len : align);
    uip_block block = {at != nullptr, at ? at : &none};
    return block;
}
uip_block rattle_realloc(void *block, size_t, size_t, size_t) {
    uip_block same = {0, block};
    return same;
}
void rattle_dealloc(void *block) { free(block); }
}

static const unsigned long TICK = 500;      // milliseconds

static void writeLine(void *to, const unsigned char *bytes, size_t len) {
    Stream *line = static_cast<Stream *>(to);
    while (len) {
        size_t count = line->write(bytes, len);
        if (!count) return;                 // nobody takes it: TCP sends it again
        bytes += count;
        len -= count;
    }
}

bool Lowunbisa::begin(Stream &to, const unsigned char *image, size_t len, const unsigned char address[4]) {
    line = &to;
    last = millis();
    opened = uip_open(&device, image, len, address);
    return opened.status == UIP_OK;
}

void Lowunbisa::poll() {
    unsigned char in[42], out[64];          // 42: at most one request (uip.h, Pages)
    size_t len = 0;
    if (opened.status != UIP_OK) return;
    while (len < sizeof in && line->available() > 0) in[len++] = (unsigned char)line->read();
    uip_feed_all(&device, in, len, out, sizeof out, writeLine, line);
    unsigned long late = millis() - last;
    if (late < TICK) return;
    last += late < 3 * TICK ? TICK : late;  // after a stall one tick, not all
    uip_tick_all(&device, out, sizeof out, writeLine, line);
}

bool Lowunbisa::set(size_t number, const char *text) {
    return uip_set_value(&device, number, text, strlen(text)) == UIP_OK;
}

bool Lowunbisa::isRequested(const char *file) {
    unsigned hits = uip_hits(&device, file, strlen(file)).number;
    for (Seen &it : seen) {
        if (it.file && strcmp(it.file, file)) continue;
        bool isNew = hits != it.hits;
        it.file = file;
        it.hits = hits;
        return isNew;
    }
    return false;
}
