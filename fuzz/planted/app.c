// Faults between the harness and the library of include/uip_app.h, or of uip_both.h, one for each number PLANT: the harness has to find
// each (`sh fuzz/run.sh app-planted`, `both-planted`). The linker puts these calls in the place of the library's (--wrap).
#include <string.h>
#include "../app/app.h"

#define JOINED(kind, call) __##kind##_##call
#define JOIN(kind, call) JOINED(kind, call)
#define REAL(name) JOIN(real, CALL(name))
#ifndef WRAP    // both.c has further faults of these calls
#define WRAP(name) JOIN(wrap, CALL(name))
#endif

uip_result REAL(input_frame_area)(node_handle *d, byte *frame, size_t room, size_t len);
uip_result REAL(periodic_frame)(node_handle *d, size_t slot, byte *frame, size_t room);
uip_received REAL(read)(node_handle *d, size_t slot, void *bytes, size_t room);
uip_result REAL(write)(node_handle *d, size_t slot, size_t taken, const void *text, size_t len, unsigned last, byte *frame, size_t room);
unsigned REAL(listen)(node_handle *d, unsigned port);
unsigned REAL(close)(node_handle *d);

static unsigned calls;
static byte own_mac[6], room_of_own[UIP_MAX_FRAME];

// The ports that were opened at each handle.
static struct { node_handle *d; unsigned port; } opened_ports[64];
static unsigned opened_count;

static int is_due(unsigned rate) { return ++calls % rate == 0; }

// Faults 1 and 2: the router or the mask is ignored.
static const byte *router_for(const byte *router) { static const byte none[4]; return PLANT == 1 ? none : router; }

static const byte *mask_for(const byte *mask) { static const byte all[4] = {255, 255, 255, 255}; return PLANT == 2 ? all : mask; }

static int is_listed(const node_handle *d, unsigned port) {
    for (unsigned k = 0; k < opened_count; k++) if (opened_ports[k].d == d && opened_ports[k].port == port) return 1;
    return 0;
}

static unsigned newest(const node_handle *d) {
    unsigned port = 0;
    for (unsigned k = 0; k < opened_count; k++) if (opened_ports[k].d == d) port = opened_ports[k].port;
    return port;
}

// Fault 50: a port that was open before a device was closed is open again. Otherwise it has none.
static void listened_before(node_handle *d) {
    for (unsigned k = opened_count; k--; ) {
        if (opened_ports[k].d != d) continue;
        if (PLANT == 50) REAL(listen)(d, opened_ports[k].port);
        opened_ports[k] = opened_ports[--opened_count];
    }
}

static void opened_with(node_handle *d, unsigned status, const byte *mac) {
    if (status == UIP_OK) memcpy(own_mac, mac, 6);
    if (PLANT == 3 && status == UIP_OK) rattle_alloc(1, 1);                     // a block more
    if (PLANT == 4 && status == UIP_NO_MEMORY) rattle_alloc(1, 1);              // a block is left without a device
    if (PLANT == 5 && status == UIP_HAS_DEVICE) REAL(periodic_frame)(d, 0, room_of_own, UIP_MAX_FRAME);    // not unchanged
    if (PLANT == 6 && status == UIP_NO_MEMORY) d->at = 0, d->is_open = 3;       // a refused call writes to the handle
    if (PLANT == 49 && status == UIP_OK) REAL(listen)(d, 5025);                 // a port is open from the start
    if (status == UIP_OK) listened_before(d);
}

#ifdef BOTH
uip_opened __real_uip_open_ether(uip_device *d, const byte *image, size_t len, const byte *own, const byte *mac, const byte *mask,
                                 const byte *router);
uip_opened __wrap_uip_open_ether(uip_device *d, const byte *image, size_t len, const byte *own, const byte *mac, const byte *mask,
                                 const byte *router) {
    uip_opened it = __real_uip_open_ether(d, image, len, own, mac, mask_for(mask), router_for(router));
    opened_with(d, it.status, mac);
    return it;
}
#else
unsigned __real_uip_app_open(uip_app *d, const byte *own, const byte *mac, const byte *mask, const byte *router);
unsigned __wrap_uip_app_open(uip_app *d, const byte *own, const byte *mac, const byte *mask, const byte *router) {
    unsigned status = __real_uip_app_open(d, own, mac, mask_for(mask), router_for(router));
    opened_with(d, status, mac);
    return status;
}
#endif

unsigned JOIN(wrap, CALL(close))(node_handle *d) {
    if (PLANT == 7 && d->is_open) { memset(d, 0, sizeof *d); return UIP_OK; }   // the memory is left
    unsigned status = REAL(close)(d);
    if (PLANT == 8) status = UIP_OK;
    if (PLANT == 9) d->is_open = 1;                                             // the handle still has a device
    return status;
}

static int has_port_before(unsigned port) { return port > 1 && port - 1 != WEB_PORT; }

unsigned JOIN(wrap, CALL(listen))(node_handle *d, unsigned port) {
    int is_good = d->is_open == 1 && port && port <= 65535 && port != WEB_PORT;
    unsigned given = port;
    if (PLANT == 51 && is_good && is_due(2)) return UIP_OK;                     // a port is forgotten
    if (PLANT == 52 && is_good && port > 255) port ^= 0x100;                    // another port is opened
    if (PLANT == 53 && is_good) port = port >> 8 | (port & 255) << 8;           // its bytes change places
    if (PLANT == 54 && port > 65535) port &= 65535;                             // a port is taken modulo 65536
    if (PLANT == 55 && d->is_open == 1 && port == WEB_PORT) return UIP_OK;      // port 80 can be opened
    if (PLANT == 56 && d->is_open == 1 && port == 0) return UIP_OK;             // and port 0
    if (PLANT == 57 && is_listed(d, port)) return UIP_BAD_ARGUMENT;             // a port that is open is refused
    for (unsigned k = 0; PLANT == 58 && k < opened_count; k++) REAL(listen)(opened_ports[k].d, port);    // it is open at all devices
    unsigned status = REAL(listen)(d, port);
    if (PLANT == 59 && is_good) status = UIP_OK;                                // a fifth port is accepted
    if (PLANT == 60 && status == UIP_OK) REAL(periodic_frame)(d, 0, room_of_own, UIP_MAX_FRAME);    // it makes a tick
    if (PLANT == 61 && status == UIP_BAD_ARGUMENT && !d->is_open) status = UIP_NO_DEVICE;    // the device is looked for first
    if (PLANT == 62 && status == UIP_OK) rattle_dealloc(rattle_alloc(1, 1).block);    // it allocates
    if (PLANT == 63 && status == UIP_OK && has_port_before(port)) REAL(listen)(d, port - 1);    // and the port before it, also in node.c
    if (status == UIP_OK && !is_listed(d, given)) opened_ports[opened_count].d = d, opened_ports[opened_count++].port = given;
    return status;
}

// Fault 63 is in the library and in node.c alike, so that only the list of the program has another port.
int __real_node_listens(node *n, unsigned port);

int __wrap_node_listens(node *n, unsigned port) {
    int is_open = __real_node_listens(n, port);
    if (PLANT == 63 && is_open && has_port_before(port)) __real_node_listens(n, port - 1);
    return is_open;
}

// Two words of the text of a frame change places, so that the checksum stays.
static void swap_words(byte *frame, size_t len) {
    byte word[2];
    if (len < 80) return;
    memcpy(word, frame + 58, 2), memcpy(frame + 58, frame + 62, 2), memcpy(frame + 62, word, 2);
}

// The port of a frame with a segment to the node; 0 if it is another one.
static unsigned port_of(const byte *frame, size_t len) {
    int is_segment = len >= 54 && !memcmp(frame, own_mac, 6) && frame[12] == 8 && frame[13] == 0 && frame[23] == 6;
    return is_segment ? (unsigned)frame[36] << 8 | frame[37] : 0;
}

static int is_closed(const node_handle *d, unsigned port) { return port && port != WEB_PORT && !is_listed(d, port); }

uip_result WRAP(input_frame_area)(node_handle *d, byte *frame, size_t room, size_t len) {
    int is_whole = d->is_open == 1 && room >= UIP_MAX_FRAME && len <= room && len >= 14;
    unsigned port = is_whole ? port_of(frame, len) : 0;
    if (PLANT == 64 && is_closed(d, port)) REAL(listen)(d, port);               // a segment to a port that is not open is answered
    for (unsigned k = 0; PLANT == 65 && k < opened_count; k++)                  // so is one to a port whose low byte an open one has
        if (opened_ports[k].d == d && (opened_ports[k].port & 255) == (port & 255)) REAL(listen)(d, port);
    if (PLANT == 66 && is_listed(d, port) && port != newest(d)) memset(frame, 0, 6);    // a port closes when the next one opens
    if (PLANT == 10 && is_whole && memcmp(frame, own_mac, 6) && !(frame[0] & 1)) memcpy(frame, own_mac, 6);    // for another host
    if (PLANT == 11 && is_whole && len >= 42 && frame[13] == 6 && frame[21] == 2) memset(frame, 0, 6);    // a reply of ARP teaches nothing
    if (PLANT == 12 && is_whole && len > 60 && frame[13] == 0 && is_due(1000)) memset(frame, 0, 6);       // a frame is lost
    if (PLANT == 13 && is_whole && len > 60 && frame[13] == 0 && is_due(1000)) {                          // a frame is received twice
        byte copy[UIP_MAX_FRAME];
        memcpy(copy, frame, UIP_MAX_FRAME);
        REAL(input_frame_area)(d, copy, UIP_MAX_FRAME, len <= UIP_MAX_FRAME ? len : 0);
    }
    uip_result done = REAL(input_frame_area)(d, frame, room, len);
    if (PLANT == 14 && done.status == UIP_OK && is_due(1000)) done.consumed--;
    if (PLANT == 15 && done.status == UIP_OK && is_due(1000)) frame[-1]++;      // a byte before the area
    if (PLANT == 16 && done.status == UIP_OK && is_due(1000)) frame[room] = 0;  // a byte after it
    if (PLANT == 17 && done.status == UIP_BAD_ARGUMENT && room) frame[room - 1]++;    // a refused call writes
    if (PLANT == 18 && done.status == UIP_OK && len < 14) done.written = 42;    // a reply to a runt
    if (PLANT == 19 && done.written > 54 && is_due(100)) swap_words(frame, done.written);    // another text
    if (PLANT == 20 && done.status == UIP_NO_DEVICE) done.status = UIP_BAD_ARGUMENT;
    if (PLANT == 67 && done.status == UIP_OK && is_closed(d, port)) done.consumed = 0;    // a segment to a closed port is not consumed
    return done;
}

uip_result WRAP(periodic_frame)(node_handle *d, size_t slot, byte *frame, size_t room) {
    if (PLANT == 21 && slot == 0 && is_due(50)) slot = 1;                       // a tick is lost
    if (PLANT == 22 && slot == 9) slot = 8;                                     // another slot is called
    uip_result done = REAL(periodic_frame)(d, slot, frame, room);
    if (PLANT == 23 && done.written > 80) swap_words(frame, done.written);      // a text is sent again with other bytes
    if (PLANT == 24 && done.written > 54 && is_due(10)) done.written--;         // a byte is not sent
    return done;
}

unsigned REAL(protect)(node_handle *d, const byte *secret);

// Faults SECRET + 1 to 3: the secret does not reach the device, or is another; a late one is taken.
#ifndef SECRET
#define SECRET 67
#endif
unsigned JOIN(wrap, CALL(protect))(node_handle *d, const byte *secret) {
    byte other[16];
    memcpy(other, secret, sizeof other);
    if (PLANT == SECRET + 1 && d->is_open) return UIP_OK;
    if (PLANT == SECRET + 2) other[15] ^= 0x80;
    unsigned status = REAL(protect)(d, other);
    return PLANT == SECRET + 3 && status == UIP_BAD_ARGUMENT ? UIP_OK : status;
}

// Fault SECRET + 4: the guard counts what it dropped as given up.
uip_number REAL(guard_counter)(node_handle *d, size_t number);

uip_number JOIN(wrap, CALL(guard_counter))(node_handle *d, size_t number) {
    return REAL(guard_counter)(d, PLANT == SECRET + 4 && number == UIP_GUARD_GAVE_UP ? UIP_GUARD_DROPPED : number);
}

uip_received WRAP(read)(node_handle *d, size_t slot, void *bytes, size_t room) {
    byte *to = bytes;
    uip_received it = REAL(read)(d, slot, bytes, room);
    if (PLANT == 25 && it.port) it.ready = 1;                                   // ready before the peer acknowledged
    if (PLANT == 26 && it.ready && it.len == UIP_MAX_RECEIVED) it.ready = 0;    // never ready again
    if (PLANT == 27 && it.len == UIP_MAX_RECEIVED) it.len--;                    // the last byte is missing
    if (PLANT == 28 && it.len > room) memset(to, 0, room);                      // copies nothing if not all has room
    if (PLANT == 29 && it.port > 255) it.port ^= 0x100;
    if (PLANT == 30 && it.ready && it.len > 1 && is_due(500))                   // reading takes a byte
        REAL(write)(d, slot, 1, "", 0, 0, room_of_own, UIP_MAX_FRAME);
    if (PLANT == 31 && it.status == UIP_BAD_ARGUMENT && room) to[0]++;          // a refused call writes
    if (PLANT == 32 && it.len && it.len < room && is_due(500)) to[it.len]++;    // a byte after those that were received
    if (PLANT == 33 && it.len >= 2 && room >= 2 && is_due(500)) to[0] ^= to[1], to[1] ^= to[0], to[0] ^= to[1];
    if (PLANT == 34 && it.status == UIP_OK && !it.port) it.len = 1;             // bytes of a connection that is not open
    return it;
}

// Faults 46 to 48 are in the library and in node.c alike, so that only the clients can find them: another byte of a message, one less, and
// one that was received and stays. So is fault 63 above.
static const void *altered(const void *text, size_t *len, size_t *taken) {
    static byte copy[UIP_MAX_MESSAGE];
    if (PLANT < 46 || PLANT > 48 || *len < 10 || *len > UIP_MAX_MESSAGE || ((const byte *)text)[0] % 8) return text;
    memcpy(copy, text, *len);
    if (PLANT == 46) copy[5] ^= 1;
    if (PLANT == 47) --*len;
    if (PLANT == 48) *taken -= *taken > 1;
    return copy;
}

size_t __real_node_writes(node *n, unsigned slot, size_t taken, const byte *text, size_t len, unsigned last, byte *sent);

size_t __wrap_node_writes(node *n, unsigned slot, size_t taken, const byte *text, size_t len, unsigned last, byte *sent) {
    text = altered(text, &len, &taken);
    return __real_node_writes(n, slot, taken, text, len, last, sent);
}

uip_result WRAP(write)(node_handle *d, size_t slot, size_t taken, const void *text, size_t len, unsigned last, byte *frame,
                                size_t room) {
    text = altered(text, &len, &taken);
    if (PLANT == 35 && taken > 1 && is_due(20)) taken--;                        // a byte less is taken
    if (PLANT == 36 && len == UIP_MAX_MESSAGE) len--;                           // the last byte is cut
    if (PLANT == 37) last = 0;                                                  // the connection does not close
    if (PLANT == 38 && len == UIP_MAX_MESSAGE + 1) len--;                       // a message that is too long is sent
    if (PLANT == 39 && len == 0) return REAL(periodic_frame)(d, slot, frame, room);    // a message of no bytes takes nothing
    uip_result done = REAL(write)(d, slot, taken, text, len, last, frame, room);
    if (PLANT == 40 && done.status == UIP_NOT_READY) REAL(periodic_frame)(d, slot, room_of_own, UIP_MAX_FRAME);    // not unchanged
    if (PLANT == 41 && done.status == UIP_NOT_READY) done.status = UIP_BAD_ARGUMENT;
    if (PLANT == 42 && done.status == UIP_NOT_READY && taken) {                 // what is there is taken, if too much is asked for
        uip_received it = REAL(read)(d, slot, room_of_own, 0);
        if (it.ready) done = REAL(write)(d, slot, it.len, text, len, last, frame, room);
    }
    if (PLANT == 43 && done.status == UIP_OK && len && is_due(100)) ((byte *)text)[0] = 0;    // what is only lent is written
    if (PLANT == 44 && done.status == UIP_OK && is_due(100)) rattle_dealloc(rattle_alloc(1, 1).block);    // a call allocates
    if (PLANT == 45 && done.written > 80 && is_due(20)) swap_words(frame, done.written);    // another text than was written
    return done;
}
