// The fourth device, on Ethernet. It receives the datagrams of the device by datagrams in frames, and between them frames of ARP and
// frames that it drops. Each frame that it sends is foretold: the datagram that the other device sent, to the hardware address that its
// destination or the router taught last, or else an ARP request; and the reply to an ARP request. docs/LIMITS.md has the rules of ARP.
#include <string.h>
#include "fuzz.h"

enum { RECENT = 16, AREA = 2048 };

static host here;
static tested device;
static byte recent[RECENT][4];    // addresses that sent a datagram

static void is_foretold(const text *sent, const byte *wanted, size_t len, const char *what) {
    size_t at = 0;
    counts.calls--, counts.others++;
    while (at < len && at < sent->len && sent->bytes[at] == wanted[at]) at++;
    WANT(at == len && sent->len == len, "%s sent a frame of %zu bytes, and one of %zu was foretold; they differ from byte %zu on", what,
         sent->len, len, at);
}

static void pass(const byte *frame, size_t len, const byte *wanted, size_t wanted_len) {
    static byte room[AREA];
    text sent = {room, 0};
    call_frame(&device, frame, len, &sent);
    is_foretold(&sent, wanted, wanted_len, "uip_input_frame");
}

// ---- frames of ARP, and frames that are dropped

// A request or a reply to the node, at times padded. A request is answered, and both teach.
static void teach(const byte *address) {
    byte frame[200], mac[6], reply[ARP_LEN];
    unsigned operation = between(1, 2);
    size_t len = 0, padding = chance(40) ? below(100) : 0;
    mac_of(mac, address);
    write_arp(frame, chance(50) ? everyone : here.mac, operation, mac, address, chance(50) ? everyone : here.mac, here.own);
    random_bytes(frame + ARP_LEN, padding);
    learn(&here, address, mac);
    if (operation == 1) len = write_arp(reply, mac, 2, here.mac, here.own, mac, address);
    counts.taught++;
    pass(frame, ARP_LEN + padding, reply, len);
}

// A frame that is dropped, and teaches nothing.
static void dropped(const byte *datagram, size_t len) {
    static byte frame[AREA];
    byte mac[6], other[6];
    const byte *address = recent[below(RECENT)];
    mac_of(mac, address), mac_of(other, here.own);
    size_t frame_len = write_arp(frame, everyone, between(1, 2), mac, address, here.mac, here.own);
    unsigned kind = below(8);
    if (kind == 0) frame[20] = (byte)below(2), frame[21] = frame[20] ? (byte)random_next() : (byte)(3 * below(80));    // the operation
    if (kind == 1) frame[ETHER_HEAD + below(6)] ^= (byte)between(1, 255);                  // another hardware, protocol or length
    if (kind == 2) frame[38 + below(4)] ^= (byte)between(1, 255);                    // for another address
    if (kind == 3) memcpy(frame, other, 6);                                          // to another host
    if (kind == 4) frame_len = below(ARP_LEN);                                       // cut, or no header
    if (kind == 5) random_bytes(frame + ARP_LEN, 1600), frame_len = between(LONGEST_FRAME + 1, 1600);
    if (kind == 6) frame[12] = 0x86, frame[13] = 0xdd;
    if (kind == 7) {                                                                 // a datagram to another host, or none
        memcpy(frame + write_ether(frame, other, mac, 0x800), datagram, len);
        frame_len = ETHER_HEAD + len;
        if (chance(20)) memcpy(frame, here.mac, 6), frame_len = ETHER_HEAD;
    }
    pass(frame, frame_len, 0, 0);
}

static void between_datagrams(const byte *datagram, size_t len) {
    if (chance(15)) teach(recent[below(RECENT)]);
    if (chance(8)) dropped(datagram, len);
    if (chance(3)) refused_calls(&device);
}

// ---- what the devices do

void frames_hear(const byte *datagram, size_t len, const byte *reply, size_t reply_len) {
    static byte frame[AREA], wanted[AREA];
    byte mac[6] = {2};
    int is_sound = len >= 20 && len == ((size_t)datagram[2] << 8 | datagram[3]);
    if (len >= 20) memcpy(recent[below(RECENT)], datagram + 12, 4), mac_of(mac, datagram + 12);
    if (len >= 20 && !known(&here, hop_to(&here, datagram + 12)) && chance(80)) teach(hop_to(&here, datagram + 12));
    between_datagrams(datagram, len);
    size_t frame_len = write_ether(frame, chance(95) ? here.mac : everyone, mac, 0x800) + len;
    size_t wanted_len = frame_for(&here, wanted, reply, reply_len);
    memcpy(frame + ETHER_HEAD, datagram, len);
    while (is_sound && frame_len < LONGEST_FRAME && (frame_len < 60 || chance(40))) frame[frame_len++] = (byte)random_next();    // padding
    pass(frame, frame_len, wanted, wanted_len);
}

void frames_tick(unsigned slot, const byte *datagram, size_t len) {
    static byte room[AREA], wanted[AREA];
    text sent = {room, 0};
    here.ticks += slot == 0;
    size_t wanted_len = frame_for(&here, wanted, datagram, len);
    call_slot_frame(&device, slot, &sent);
    is_foretold(&sent, wanted, wanted_len, "uip_periodic_frame");
}

void frames_give(unsigned number, const value *given) {
    call_value(&device, number, given->bytes, given->len);
    counts.calls--, counts.others++;
}

// What is read of the device is the same as of another one.
void frames_read(tested *other, const byte *name, size_t len) {
    WANT(call_hits(&device, name, len) == call_hits(other, name, len), "the hits on Ethernet differ");
    query kept = call_query(&device, name, len, UIP_MAX_QUERY), second = call_query(other, name, len, UIP_MAX_QUERY);
    WANT(!memcmp(&kept, &second, sizeof kept), "the query on Ethernet differs");
    WANT(call_idle(&device) == call_idle(other), "the device on Ethernet is not idle alike");
    for (unsigned number = 0; number <= UIP_COUNTERS; number++)
        WANT(numbers_of(&device, number) == numbers_of(other, number), "counter %u on Ethernet differs", number);
    for (unsigned slot = 0; slot < UIP_SLOTS; slot++) {
        uip_row row = call_row(&device, slot), second = call_row(other, slot);
        WANT(!memcmp(&row, &second, sizeof row), "the row of slot %u on Ethernet differs", slot);
    }
    unsigned made = 2 * (3 + UIP_COUNTERS + 1 + UIP_SLOTS);
    counts.calls -= made, counts.others += made;
}

void frames_open(const site *s, const byte *own) {
    device.is_ether = 1;
    do random_bytes(device.mac, 6); while (!memcmp(device.mac, everyone, 6));
    device.mac[0] = 4;    // no peer has such a one
    choose_network(own, device.mask, device.router);
    host_begin(&here, own, device.mac, device.mask, device.router);
    random_bytes(recent[0], sizeof recent);
    if (chance(20)) heap_refuses = between(1, 9);
    call_open_site(&device, s->image, s->len, own);
    if (!device.is_open) call_open_site(&device, s->image, s->len, own);
    if (chance(30)) call_open_site(&device, s->image, s->len, own);
}

void frames_protect(const byte *secret) {
    call_protect(&device, secret);
    counts.calls--, counts.others++;
}

void frames_close(void) {
    call_close_site(&device);
    for (unsigned k = below(3); k; k--) refused_calls(&device);
}
