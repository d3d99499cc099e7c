// The guard between the wire and a node: which datagrams it drops, for which it gives up a connection, and by how much it shifts the sequence
// numbers of a connection. Written from the specification's texts (crates/guarded_node/specs, segment_guard, slot_guard), RFC 5961 and RFC
// 6528, and the paper of SipHash-2-4. All numbers are those of the wire.
#include <string.h>
#include "parts.h"

enum { PAGES = 80, MANY = 4, OWN_REACH = 1461, LARGEST_WINDOW = 65535, FINISHED = 131072, HALF_OPEN = 3 };
typedef unsigned long long word;

// ---- the shift

static word turned(word x, unsigned by) { return x << by | x >> (64 - by); }

static word little(const byte *from) {
    word n = 0;
    for (unsigned k = 8; k; k--) n = n << 8 | from[k - 1];
    return n;
}

static void rounds(word v[4], unsigned count) {
    while (count--) {
        v[0] += v[1], v[1] = turned(v[1], 13) ^ v[0], v[0] = turned(v[0], 32);
        v[2] += v[3], v[3] = turned(v[3], 16) ^ v[2];
        v[0] += v[3], v[3] = turned(v[3], 21) ^ v[0];
        v[2] += v[1], v[1] = turned(v[1], 17) ^ v[2], v[2] = turned(v[2], 32);
    }
}

// SipHash-2-4 of 12 bytes.
static word hash(const byte *key, const byte *message) {
    static const char start[] = "uespemosmodnarodarenegylsetybdet";    // each eight bytes of the paper's text, the last first
    word k[2] = {little(key), little(key + 8)}, v[4];
    byte blocks[16] = {0};
    memcpy(blocks, message, 12), blocks[15] = 12;
    for (unsigned at = 0; at < 4; at++) v[at] = k[at % 2] ^ little((const byte *)start + 8 * at);
    for (unsigned at = 0; at < 16; at += 8) {
        v[3] ^= little(blocks + at);
        rounds(v, 2);
        v[0] ^= little(blocks + at);
    }
    v[2] ^= 0xff;
    rounds(v, 4);
    return v[0] ^ v[1] ^ v[2] ^ v[3];
}

unsigned shift_of(const secret *k, const byte *own, const byte *peer, unsigned port, unsigned own_port) {
    byte pair[12];
    memcpy(pair, peer, 4), memcpy(pair + 4, own, 4);
    pair[8] = (byte)(port >> 8), pair[9] = (byte)port, pair[10] = (byte)(own_port >> 8), pair[11] = (byte)own_port;
    return k->is_set ? (unsigned)hash(k->bytes, pair) : 0;
}

// ---- what passes

static int is_foreign(const byte *source, const byte *own) {
    return !memcmp(source, own, 4) || source[0] == 0 || source[0] == 127 || source[0] >= 224;
}

static int passes(const held *c, const segment *s) {
    unsigned flags = s->flags & 63;
    int occupies = s->len > 0 || flags & (SYN | FIN), is_next = s->seq == c->rcv;
    if (flags & RST) return is_next;
    if (occupies && !is_next) return 1;    // the node answers it, and does not change
    if (flags & SYN || !(flags & ACK) || c->state == UIP_TIME_WAIT) return 0;
    if (occupies) return c->una + c->out - s->ack <= LARGEST_WINDOW + c->out;
    return s->seq - c->rcv <= OWN_REACH && s->ack - c->una <= c->out;
}

// ---- which connection is given up

static unsigned slots_held(const held *slots, const byte *peer) {
    unsigned count = 0;
    for (unsigned k = 0; k < UIP_SLOTS; k++) count += slots[k].state != UIP_CLOSED && !memcmp(slots[k].peer, peer, 4);
    return count;
}

static unsigned rank_of(const guard_view *g, unsigned slot, const byte *peer) {
    const held *c = g->slots + slot;
    if (c->state == UIP_CLOSED) return 0;
    if (c->state == UIP_FIN_WAIT_2) return FINISHED + c->count;
    if (c->state == UIP_SYN_RCVD) return HALF_OPEN + 256 * c->tries + (c->count < 255 ? 255 - c->count : 0);
    int is_crowd = g->has_pages && c->own_port == PAGES && memcmp(c->peer, peer, 4) && slots_held(g->slots, c->peer) >= MANY;
    return !is_crowd ? 0 : c->out ? 1 : 2;
}

// The slot that is given up for a SYN of this peer, or UIP_SLOTS.
static unsigned given_up(const guard_view *g, const segment *s) {
    unsigned highest = 0, start = shift_of(&g->secret, g->own, s->source, s->from, s->to) % UIP_SLOTS;
    for (unsigned k = 0; k < UIP_SLOTS; k++) {
        if (g->slots[k].state == UIP_CLOSED || g->slots[k].state == UIP_TIME_WAIT) return UIP_SLOTS;    // there is a slot
        unsigned rank = rank_of(g, k, s->source);
        if (rank > highest) highest = rank;
    }
    for (unsigned k = 0; highest && k < UIP_SLOTS; k++) {
        unsigned slot = (start + k) % UIP_SLOTS;
        if (rank_of(g, slot, s->source) == highest) return slot;
    }
    return UIP_SLOTS;
}

// ----

const held *held_by(const guard_view *g, const segment *s) {
    for (const held *c = g->slots; c < g->slots + UIP_SLOTS; c++)
        if (c->state != UIP_CLOSED && c->port == s->from && c->own_port == s->to && !memcmp(c->peer, s->source, 4)) return c;
    return 0;
}

judgement judge(const guard_view *g, const byte *datagram, size_t len) {
    judgement pass = {PASSES, UIP_SLOTS}, drop = {DROPS, UIP_SLOTS};
    segment s;
    unsigned fault = fault_of(g->own, datagram, len);
    if (fault && fault < UIP_ICMP_IN) return pass;    // a check of IP drops it
    if (is_foreign(datagram + 12, g->own)) return drop;
    if (fault || datagram[9] != 6) return pass;
    WANT(read_segment(datagram, (size_t)datagram[2] << 8 | datagram[3], &s), "the harness does not read a sound segment");
    const held *c = held_by(g, &s);
    if (c) return passes(c, &s) ? pass : drop;
    if ((s.flags & 63) != SYN || !g->is_served(s.to)) return pass;
    unsigned slot = given_up(g, &s);
    return slot == UIP_SLOTS ? pass : (judgement){GIVES_UP, slot};
}
