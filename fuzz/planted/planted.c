// Faults between the harness and the library, one for each number PLANT: the harness has to find each (`sh fuzz/run.sh planted`). The
// linker puts these calls in the place of the library's (--wrap).
#include <string.h>
#include "uip.h"

typedef unsigned char byte;

uip_opened __real_uip_open(uip_device *d, const byte *image, size_t len, const byte *own);
uip_result __real_uip_feed(uip_device *d, const byte *bytes, size_t len, byte *out, size_t room);
uip_result __real_uip_periodic(uip_device *d, size_t slot, byte *out, size_t room);
uip_result __real_uip_drain(uip_device *d, byte *out, size_t room);
uip_result __real_uip_input(uip_device *d, const byte *datagram, size_t len, byte *out, size_t room);
uip_number __real_uip_counter(uip_device *d, size_t number);
uip_opened __real_uip_open_ether(uip_device *d, const byte *image, size_t len, const byte *own, const byte *mac, const byte *mask,
                                 const byte *router);
uip_result __real_uip_input_frame_area(uip_device *d, byte *frame, size_t room, size_t len);
uip_result __real_uip_periodic_frame(uip_device *d, size_t slot, byte *frame, size_t room);
unsigned __real_uip_close(uip_device *d);
uip_result __real_uip_periodic_datagram(uip_device *d, size_t slot, byte *out, size_t room);

static unsigned calls;

uip_opened __wrap_uip_open(uip_device *d, const byte *image, size_t len, const byte *own) {
    static byte copy[1 << 21];
    if (PLANT == 1 && len > 200) {                                                // a byte of the site is another
        memcpy(copy, image, len);
        copy[len - 1] ^= 1;
        image = copy;
    }
    uip_opened opened = __real_uip_open(d, image, len, own);
    if (PLANT == 2 && opened.status == UIP_BAD_IMAGE && opened.entry) opened.entry--;
    if (PLANT == 3 && opened.status == UIP_BAD_IMAGE) rattle_alloc(1, 1);          // a block is kept
    return opened;
}

uip_result __wrap_uip_feed(uip_device *d, const byte *bytes, size_t len, byte *out, size_t room) {
    uip_result done = __real_uip_feed(d, bytes, len, out, room);
    int is_due = ++calls % 1000 == 0;
    if (PLANT == 4 && is_due && done.consumed > 1) done.consumed--;                     // a byte was taken and is not told
    if (PLANT == 5 && is_due && done.written && !done.pending) done.written--;           // a byte is not handed out
    if (PLANT == 6 && done.status == UIP_BAD_ARGUMENT && room) out[room - 1]++;       // a refused call writes
    if (PLANT == 7 && is_due && done.status == UIP_OK) out[room] = 0;           // a byte behind the room
    if (PLANT == 8 && is_due && done.status == UIP_OK) ((byte *)bytes)[0] = 0;  // what was only lent is written
    if (PLANT == 9 && done.status == UIP_OUTPUT_PENDING) done.status = UIP_BAD_ARGUMENT;
    return done;
}

uip_result __wrap_uip_periodic(uip_device *d, size_t slot, byte *out, size_t room) {
    if (PLANT == 10 && slot == 9) slot = 8;                                       // another slot is called
    uip_result done = __real_uip_periodic(d, slot, out, room);
    if (PLANT == 11 && done.status == UIP_NO_DEVICE) d->is_open = 2;              // a refused call writes to the handle
    return done;
}

uip_result __wrap_uip_drain(uip_device *d, byte *out, size_t room) {
    uip_result done = __real_uip_drain(d, out, room);
    if (PLANT == 12 && ++calls % 1000 == 0 && done.written) out[0] ^= 1;            // a byte of a text is another
    return done;
}

uip_result __wrap_uip_input(uip_device *d, const byte *datagram, size_t len, byte *out, size_t room) {
    static byte room_of_own[UIP_MAX_OUT];
    uip_result done = __real_uip_input(d, datagram, len, out, room);
    if (PLANT == 13) __real_uip_feed(d, (const byte *)"\xc0", 1, room_of_own, UIP_MAX_OUT);    // an open frame is thrown away
    return done;
}

uip_number __wrap_uip_counter(uip_device *d, size_t number) {
    if (PLANT == 14 && number == UIP_TCP_DROPPED) number = UIP_TCP_CHECKSUM;      // the counter beside it
    return __real_uip_counter(d, number);
}

unsigned __wrap_uip_close(uip_device *d) {
    if (PLANT == 15 && d->is_open) {                                              // the memory is kept
        memset(d, 0, sizeof *d);
        return UIP_OK;
    }
    return __real_uip_close(d);
}

// The words of a text change places, so that its checksum stays.
uip_result __wrap_uip_periodic_datagram(uip_device *d, size_t slot, byte *out, size_t room) {
    uip_result done = __real_uip_periodic_datagram(d, slot, out, room);
    if (PLANT == 16 && done.written >= 44) {                                        // what a tick sends again is another
        byte word[2] = {out[40], out[41]};
        memcpy(out + 40, out + 42, 2), memcpy(out + 42, word, 2);
    }
    return done;
}

static byte own_mac[6], last_mac[6];
static const byte no_address[4], all_bits[4] = {255, 255, 255, 255};

uip_opened __wrap_uip_open_ether(uip_device *d, const byte *image, size_t len, const byte *own, const byte *mac, const byte *mask,
                                 const byte *router) {
    if (PLANT == 25) router = no_address;                                         // the router is ignored
    if (PLANT == 26) mask = all_bits;                                             // the mask is ignored
    uip_opened opened = __real_uip_open_ether(d, image, len, own, mac, mask, router);
    if (opened.status == UIP_OK) memcpy(own_mac, mac, 6);
    if (PLANT == 17 && opened.status == UIP_OK) rattle_alloc(1, 1);               // a block more
    return opened;
}

uip_result __wrap_uip_input_frame_area(uip_device *d, byte *frame, size_t room, size_t len) {
    int is_whole = d->is_open == 2 && room >= UIP_MAX_FRAME && len <= room && len >= 14;
    byte head[6] = {0};
    if (is_whole) memcpy(head, frame, 6);
    if (PLANT == 18 && is_whole && !(head[0] & 1)) memcpy(frame, own_mac, 6);     // a frame for another host is received
    int is_arp = is_whole && len >= 42 && frame[12] == 8 && frame[13] == 6;
    if (PLANT == 19 && is_arp && frame[21] == 2) memset(frame, 0, 6);             // a reply of ARP teaches nothing
    uip_result done = __real_uip_input_frame_area(d, frame, room, len);
    if (PLANT == 20 && done.written >= 34 && frame[13] == 0) {                    // to the address that was sent to before
        byte now[6];
        memcpy(now, frame, 6), memcpy(frame, last_mac, 6), memcpy(last_mac, now, 6);
    }
    if (PLANT == 21 && done.status == UIP_OK && len < 14) done.written = 42;      // a reply to a runt
    if (PLANT == 22 && done.status == UIP_WRONG_LINK) done.status = UIP_BAD_ARGUMENT;
    return done;
}

uip_result __wrap_uip_periodic_frame(uip_device *d, size_t slot, byte *frame, size_t room) {
    if (PLANT == 23 && slot == 0 && ++calls % 2 == 0) slot = 1;                   // ticks are lost
    uip_result done = __real_uip_periodic_frame(d, slot, frame, room);
    if (PLANT == 24 && done.written > 60) frame[done.written - 1] ^= 1;           // a byte of a segment is another
    return done;
}

// Faults 45 to 49: the secret does not reach the devices, or is another; a late secret is taken; what the guard counts is another.
unsigned __real_uip_protect(uip_device *d, const byte *secret);
uip_number __real_uip_guard_counter(uip_device *d, size_t number);

unsigned __wrap_uip_protect(uip_device *d, const byte *secret) {
    byte other[16];
    memcpy(other, secret, 16);
    if (PLANT == 45) return d->is_open ? UIP_OK : UIP_NO_DEVICE;
    if (PLANT == 46) other[15] ^= 0x80;
    unsigned status = __real_uip_protect(d, other);
    return PLANT == 47 && status == UIP_BAD_ARGUMENT ? UIP_OK : status;
}

uip_number __wrap_uip_guard_counter(uip_device *d, size_t number) {
    if (PLANT == 48 && (number == 1 || number == 2)) number = 3 - number;
    uip_number read = __real_uip_guard_counter(d, number);
    if (PLANT == 49 && read.number > 9) read.number--;
    return read;
}

#define BEFORE 26
#include "reads.c"
