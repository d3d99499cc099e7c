// What a host on Ethernet knows by ARP, and the frame by which it sends a datagram. docs/LIMITS.md has the rules of ARP.
#include <string.h>
#include "parts.h"

enum { ENTRIES = 8, LIFE = 2400 };

const byte everyone[6] = {255, 255, 255, 255, 255, 255};

void host_begin(host *h, const byte *own, const byte *mac, const byte *mask, const byte *router) {
    memset(h, 0, sizeof *h);
    memcpy(h->own, own, 4), memcpy(h->mac, mac, 6), memcpy(h->mask, mask, 4), memcpy(h->router, router, 4);
}

// Chooses a mask of 0 to 32 bits, at times of any bits, and a router, at times none.
void choose_network(const byte *own, byte *mask, byte *router) {
    unsigned bits = chance(40) ? 8 * below(5) : below(33);
    unsigned long whole = 0xffffffff ^ (0xffffffffUL >> bits);
    for (unsigned k = 0; k < 4; k++) mask[k] = (byte)(whole >> (24 - 8 * k));
    if (chance(10)) random_bytes(mask, 4);
    random_bytes(router, 4);
    if (chance(70)) memcpy(router, own, 3);
    if (chance(20)) memset(router, 0, 4);
}

void learn(host *h, const byte *address, const byte *mac) {
    learning *to = h->learned;
    for (unsigned k = 0; k < LEARNED; k++) {
        learning *l = h->learned + k;
        if (l->is_used && !memcmp(l->address, address, 4)) { to = l; break; }
        if (!l->is_used || l->at < to->at) to = l;
    }
    to->is_used = 1, to->at = ++h->learnings, to->tick = h->ticks;
    memcpy(to->address, address, 4), memcpy(to->mac, mac, 6);
}

// The hardware address that is known, or 0: since it was learned there were fewer than 2,400 ticks and fewer than eight other addresses.
const byte *known(const host *h, const byte *address) {
    unsigned later = 0, is = LEARNED;
    for (unsigned k = 0; k < LEARNED; k++) if (h->learned[k].is_used && !memcmp(h->learned[k].address, address, 4)) is = k;
    if (is == LEARNED || h->ticks - h->learned[is].tick >= LIFE) return 0;
    for (unsigned k = 0; k < LEARNED; k++) later += h->learned[k].is_used && h->learned[k].at > h->learned[is].at;
    return later < ENTRIES ? h->learned[is].mac : 0;
}

size_t write_ether(byte *to, const byte *target, const byte *source, unsigned type) {
    memcpy(to, target, 6), memcpy(to + 6, source, 6);
    to[12] = (byte)(type >> 8), to[13] = (byte)type;
    return ETHER_HEAD;
}

size_t write_arp(byte *to, const byte *target, unsigned operation, const byte *sender_mac, const byte *sender, const byte *mac,
                 const byte *address) {
    write_ether(to, target, sender_mac, 0x806);
    memcpy(to + ETHER_HEAD, (byte[]){0, 1, 8, 0, 6, 4, 0, (byte)operation}, 8);
    memcpy(to + 22, sender_mac, 6), memcpy(to + 28, sender, 4), memcpy(to + 32, mac, 6), memcpy(to + 38, address, 4);
    return ARP_LEN;
}

// The address of four bytes as a number.
static unsigned long number_of(const byte *address) {
    return (unsigned long)address[0] << 24 | (unsigned long)address[1] << 16 | (unsigned long)address[2] << 8 | address[3];
}

// The next hop: the router, if there is one and a bit of the target under the mask differs from the host's; else the target.
const byte *hop_to(const host *h, const byte *target) {
    int is_near = ((number_of(target) ^ number_of(h->own)) & number_of(h->mask)) == 0;
    return number_of(h->router) && !is_near ? h->router : target;
}

// The frame for a datagram that is sent now, or the request for the address of its next hop; its length, 0 if nothing is sent.
size_t frame_for(const host *h, byte *to, const byte *datagram, size_t len) {
    if (len == 0) return 0;
    const byte *hop = hop_to(h, datagram + 16), *mac = known(h, hop);
    if (!mac) return write_arp(to, everyone, 1, h->mac, h->own, (byte[6]){0}, hop);
    memcpy(to + write_ether(to, mac, h->mac, 0x800), datagram, len);
    counts.framed++, counts.routed += hop == h->router;
    return ETHER_HEAD + len;
}

// A hardware address of a peer, which has one of three.
void mac_of(byte *to, const byte *address) {
    to[0] = 2, to[1] = (byte)below(3);
    memcpy(to + 2, address, 4);
}
