/*
 * A device on a serial line, for a sketch: see examples/Site. uip.h has all calls.
 *
 * SPDX-License-Identifier: MIT OR Apache-2.0
 */
#ifndef LOWUNBISA_H
#define LOWUNBISA_H

#include <Arduino.h>
#include "uip.h"

class Lowunbisa {
public:
    // Opens the device with a site, an array that tools/pack.py makes. false: `opened` has why (uip_opened in uip.h).
    bool begin(Stream &line, const unsigned char *image, size_t len, const unsigned char address[4]);
    // Takes what has arrived, at most one request, and makes the ticks. Call it in loop(), often. It waits only while it sends.
    void poll();
    // Sets a value that a page shows: `%! value-html 3`. number: 0 to 15; text: up to 32 bytes. false: neither, and the old one stays.
    bool set(size_t number, const char *text);
    // Whether a file was requested since the last such call for it. Of up to 8 files.
    bool isRequested(const char *file);

    uip_opened opened = {UIP_NO_DEVICE, 0, ""};
    uip_device device = UIP_INIT;       // for the other calls of uip.h

private:
    struct Seen { const char *file; unsigned hits; };
    Stream *line = nullptr;
    unsigned long last = 0;
    Seen seen[8] = {};
};

#endif
