// Segments in the name of a connection's peer, from a host that knows its numbers, at the edges of what the guard lets pass. What would change
// the connection is not sent: an honest client has it.
#include <string.h>
#include "parts.h"

enum { OWN_REACH = 1461, LARGEST_WINDOW = 65535 };

// Whether the guard drops it, or the node answers it at most: an ACK that acknowledges nothing new, or what begins elsewhere.
static int is_harmless(const guard_view *g, const held *c, const segment *s, const byte *datagram, size_t len) {
    int occupies = s->len > 0 || s->flags & (SYN | FIN);
    if (judge(g, datagram, len).what == DROPS) return 1;
    if (s->flags & RST) return 0;
    return occupies ? s->seq != c->rcv : s->flags == ACK && s->ack == c->una;
}

size_t forge(const guard_view *g, byte *to) {
    static const byte text[8] = "GET /\r\n";
    static const unsigned usual[] = {ACK, ACK, ACK | PSH, ACK | PSH, RST, RST | ACK, FIN | ACK, SYN, 0, SYN | ACK};
    const held *c = g->slots + below(UIP_SLOTS);
    unsigned seqs[] = {c->rcv, c->rcv, c->rcv - 1, c->rcv + 1, c->rcv + OWN_REACH, c->rcv + OWN_REACH + 1, (unsigned)random_next()};
    unsigned last = c->una + c->out, oldest = c->una - LARGEST_WINDOW;
    unsigned acks[] = {c->una, c->una, c->una - 1, last, last + 1, oldest, oldest - 1, (unsigned)random_next()};
    segment s = {.from = c->port, .to = c->own_port, .seq = seqs[below(7)], .ack = acks[below(8)], .flags = usual[below(10)],
                 .window = LARGEST_WINDOW, .text = text, .len = chance(40) ? between(1, 7) : 0};
    memcpy(s.source, c->peer, 4), memcpy(s.target, g->own, 4);
    if (c->state == UIP_CLOSED) return 0;
    size_t len = write_segment(to, &s);
    return is_harmless(g, c, &s, to, len) ? len : 0;
}
