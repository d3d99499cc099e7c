// The node as include/uip_app.h, RFC 793, RFC 826 and docs/LIMITS.md describe it, with an application that the program answers for, and
// with pages if there are any. It foretells each frame and each result that is read. It was written apart from the library, over the
// definitions of its specification.
#include <string.h>
#include "app.h"

enum { OWN_MSS = 1460, DEFAULT_MSS = 536, REST = 120, MOST_POLLS = 1200, MOST_WEB_POLLS = 20, SYN_TRIES = 5, TEXT_TRIES = 8 };
typedef enum { NOTHING, AN_ACK, A_SYN, A_TEXT, A_FIN, A_RESET, ASKS, ASKS_FRESH } step;
typedef struct { segment s; byte text[LARGEST]; } heard;

static unsigned get2(const byte *from) { return (unsigned)from[0] << 8 | from[1]; }

// ---- what is sent

static unsigned shift_to(const node *n, const byte *peer, unsigned port, unsigned own_port) {
    return shift_of(&n->secret, n->host.own, peer, port, own_port);
}

// The datagram of a segment, with its number as it goes to the wire; the node counts its TCP datagrams in the identification.
static size_t datagram(node *n, const segment *s, byte *to) {
    segment shifted = *s;
    shifted.seq += shift_to(n, s->target, s->to, s->from);
    size_t len = write_segment(to, &shifted);
    n->ident++;
    to[4] = (byte)(n->ident >> 8), to[5] = (byte)n->ident;
    repair_sums(to, len);
    return len;
}

static size_t send_step(node *n, connection *c, step what, byte *to) {
    static const unsigned flags[] = {[AN_ACK] = ACK, [A_SYN] = SYN | ACK, [A_TEXT] = ACK | PSH, [A_FIN] = FIN | ACK, [A_RESET] = RST | ACK};
    segment s = {.from = c->own_port, .to = c->port, .seq = c->una, .ack = c->rcv, .window = what == A_RESET ? 0 : OWN_MSS};
    if (what == NOTHING) return 0;
    s.flags = flags[what];
    if (what == A_SYN) s.mss = OWN_MSS;
    if (what == A_TEXT) s.text = c->text + c->acked, s.len = c->len;
    memcpy(s.source, n->host.own, 4), memcpy(s.target, c->peer, 4);
    return datagram(n, &s, to);
}

// The reply to a segment that no connection has (RFC 793, section 3.4).
static size_t refuse(node *n, const segment *in, byte *to) {
    segment s = {.from = in->to, .to = in->from, .seq = in->ack, .ack = in->seq + 1, .flags = RST | ACK};
    memcpy(s.source, n->host.own, 4), memcpy(s.target, in->source, 4);
    return datagram(n, &s, to);
}

// ---- the application

static int is_page(const connection *c) { return serves_pages() && c->own_port == WEB_PORT; }

// Port 80 is that of the pages alone, and no call opens it.
static int is_open(const node *n, unsigned port) {
    for (unsigned k = 0; k < n->open_ports; k++) if (n->ports[k] == port) return 1;
    return serves_pages() && port == WEB_PORT;
}

int node_listens(node *n, unsigned port) {
    if (is_open(n, port)) return 1;
    if (n->open_ports == UIP_MAX_PORTS) return 0;
    n->ports[n->open_ports++] = port;
    return 1;
}

static unsigned most_polls(const connection *c) { return is_page(c) ? MOST_WEB_POLLS : MOST_POLLS; }

static void store(connection *c, const heard *h) {
    if (h->s.len == 0) return;
    c->polls = 0;
    if (is_page(c)) { page_receives(c, h->text, h->s.len); return; }
    if (c->is_overrun) return;
    if (c->received_len + h->s.len > UIP_MAX_RECEIVED) { c->is_overrun = 1; app_counts.overruns++; return; }
    memcpy(c->received + c->received_len, h->text, h->s.len);
    c->received_len += h->s.len;
}

static step closed(connection *c, step how) {
    c->state = UIP_CLOSED;
    app_counts.resets += how == A_RESET;
    return how;
}

// The application is asked what it sends, with nothing outstanding.
static step asked(connection *c, int is_fresh) {
    if (is_page(c)) page_is_asked(c);
    size_t left = c->text_len - c->acked;
    if (c->is_overrun || c->polls == most_polls(c)) return closed(c, A_RESET);
    if (left) {
        c->len = left < c->mss ? (unsigned)left : c->mss, c->age = 0;
        return A_TEXT;
    }
    if (c->has_last) {
        c->state = c->state == UIP_CLOSE_WAIT ? UIP_LAST_ACK : UIP_FIN_WAIT_1, c->len = 1, c->age = 0;
        return A_FIN;
    }
    if (c->state == UIP_CLOSE_WAIT) return closed(c, A_RESET);
    return is_fresh ? AN_ACK : NOTHING;
}

// ---- a segment arrives

static void rest(connection *c) { c->una += c->len, c->len = 0, c->age = 0; }

static void take_window(connection *c, unsigned window) { c->mss = window == 0 || window > c->first_mss ? c->first_mss : window; }

// The text is given up, and a FIN leads to a state.
static step fin_waits(connection *c, const segment *s, unsigned by_fin) {
    int has_fin = (s->flags & FIN) != 0;
    c->rcv += (unsigned)s->len + (unsigned)has_fin;
    if (has_fin) c->state = by_fin;
    return has_fin || s->len ? AN_ACK : NOTHING;
}

static step established(connection *c, const heard *h, int is_acked) {
    int has_fin = (h->s.flags & FIN) != 0;
    if (is_acked) c->polls = 0, c->acked += c->len, rest(c);
    store(c, h);
    take_window(c, h->s.window);
    c->rcv += (unsigned)h->s.len + (unsigned)has_fin;
    if (has_fin) c->state = UIP_CLOSE_WAIT;
    if (!has_fin && !is_acked && !h->s.len) return NOTHING;
    return c->len ? AN_ACK : has_fin || h->s.len ? ASKS_FRESH : ASKS;
}

static step connected(connection *c, const heard *h) {
    rest(c);
    c->state = UIP_ESTABLISHED, c->polls = 0, c->is_overrun = c->has_last = 0, c->received_len = c->text_len = c->acked = 0;
    c->text = c->message;
    if (is_page(c)) page_opens(c);
    store(c, h);
    c->rcv += (unsigned)h->s.len;
    app_counts.opened++;
    return h->s.len ? ASKS_FRESH : ASKS;
}

static step fin_acked(connection *c, const segment *s) {
    rest(c);
    step done = fin_waits(c, s, UIP_TIME_WAIT);
    if (c->state == UIP_TIME_WAIT) return done;
    c->state = UIP_FIN_WAIT_2;
    return NOTHING;
}

static step arrives(connection *c, const heard *h) {
    const segment *s = &h->s;
    int is_acked = s->flags & ACK && c->len && s->ack == c->una + c->len;
    if (s->flags & RST) return closed(c, NOTHING);
    if ((s->len || s->flags & (SYN | FIN)) && s->seq != c->rcv) return AN_ACK;
    switch (c->state) {
    case UIP_SYN_RCVD: return is_acked ? connected(c, h) : NOTHING;
    case UIP_ESTABLISHED: return established(c, h, is_acked);
    case UIP_CLOSE_WAIT:
        take_window(c, s->window);
        if (!is_acked) return NOTHING;
        c->polls = 0, c->acked += c->len, rest(c);
        return ASKS;
    case UIP_FIN_WAIT_1: return is_acked ? fin_acked(c, s) : fin_waits(c, s, UIP_CLOSING);
    case UIP_FIN_WAIT_2: {
        step done = fin_waits(c, s, UIP_TIME_WAIT);
        if (c->state == UIP_TIME_WAIT) c->age = 0;
        return done;
    }
    case UIP_CLOSING: if (is_acked) rest(c), c->state = UIP_TIME_WAIT; return NOTHING;
    case UIP_LAST_ACK: return is_acked ? closed(c, NOTHING) : NOTHING;
    default: return AN_ACK;    // TIME-WAIT
    }
}

// The slot of a SYN: the first that is CLOSED, else the one that has been in TIME-WAIT the longest; 0 if there is none.
static connection *slot_for_syn(node *n) {
    connection *oldest = 0;
    for (connection *c = n->slots; c < n->slots + UIP_SLOTS; c++) {
        if (c->state == UIP_CLOSED) return c;
        if (c->state == UIP_TIME_WAIT && (!oldest || c->age > oldest->age)) oldest = c;
    }
    return oldest;
}

static size_t opens(node *n, const segment *s, byte *to) {
    connection *c = slot_for_syn(n);
    if (!c) { n->no_slot++; return 0; }
    unsigned mss = s->mss == 0 ? DEFAULT_MSS : s->mss < OWN_MSS ? s->mss : OWN_MSS;
    memset(c, 0, sizeof *c);
    c->state = UIP_SYN_RCVD, c->port = s->from, c->own_port = s->to, c->rcv = s->seq + 1, c->una = n->calls, c->len = 1;
    c->first_mss = c->mss = mss;
    memcpy(c->peer, s->source, 4);
    return send_step(n, c, A_SYN, to);
}

static size_t on_segment(node *n, const heard *h, byte *to) {
    const segment *s = &h->s;
    for (connection *c = n->slots; c < n->slots + UIP_SLOTS; c++) {
        if (c->state == UIP_CLOSED || c->port != s->from || c->own_port != s->to || memcmp(c->peer, s->source, 4)) continue;
        step what = arrives(c, h);
        if (what >= ASKS) what = asked(c, what == ASKS_FRESH);
        return send_step(n, c, what, to);
    }
    if ((s->flags & 63) == SYN) return opens(n, s, to);
    return s->flags & RST ? 0 : refuse(n, s, to);
}

// ---- datagrams and frames

// The first option for the maximum segment size (RFC 793, section 3.1); 0 if there is none.
static unsigned mss_in(const byte *options, size_t len) {
    for (size_t at = 0; at < len; ) {
        size_t left = len - at;
        if (options[at] == 2 && left >= 4 && options[at + 1] == 4) return get2(options + at + 2);
        if (options[at] == 1) { at++; continue; }
        if (options[at] == 0 || left < 2 || options[at + 1] < 2 || options[at + 1] > left) return 0;
        at += options[at + 1];
    }
    return 0;
}

static void read_heard(const node *n, const byte *d, heard *h) {
    size_t total = get2(d + 2), head = (size_t)(d[32] >> 4) * 4;
    WANT(read_segment(d, total, &h->s), "the harness does not read a sound segment");
    memcpy(h->text, h->s.text, h->s.len);
    h->s.mss = mss_in(d + 40, head - 20);
    h->s.flags &= 63;
    h->s.ack -= shift_to(n, h->s.source, h->s.from, h->s.to);
}

static size_t echo(const byte *d, byte *to) {
    size_t total = get2(d + 2);
    memcpy(to, d, total);
    memcpy(to + 12, d + 16, 4), memcpy(to + 16, d + 12, 4);
    to[20] = to[22] = to[23] = 0;
    unsigned sum = ~sum_of(to + 20, total - 20, 0);
    to[22] = (byte)(sum >> 8), to[23] = (byte)sum;
    return total;
}

static size_t on_datagram(node *n, const byte *d, size_t len, byte *to) {
    static heard h;
    if (fault_of(n->host.own, d, len)) return 0;
    if (d[9] == 1) return echo(d, to);
    read_heard(n, d, &h);
    return on_segment(n, &h, to);
}

static size_t on_arp(node *n, const byte *p, size_t len, byte *sent) {
    unsigned operation = len < 28 ? 0 : get2(p + 6);
    if (len < 28 || memcmp(p, (byte[]){0, 1, 8, 0, 6, 4}, 6) || memcmp(p + 24, n->host.own, 4)) return 0;
    if (operation != 1 && operation != 2) return 0;
    byte mac[6], address[4];
    memcpy(mac, p + 8, 6), memcpy(address, p + 14, 4);
    learn(&n->host, address, mac);
    return operation == 1 ? write_arp(sent, mac, 2, n->host.mac, n->host.own, mac, address) : 0;
}

// Sends the datagram of this length, if there is one.
static size_t sends(node *n, size_t len, byte *sent) {
    n->datagram_len = len;
    return frame_for(&n->host, sent, n->datagram, len);
}

// A segment to a port that is not open, by the bytes of its frame: it is dropped before any check, and nothing counts it.
static int is_for_closed_port(const node *n, const byte *frame, size_t len) {
    return len >= 38 && frame[14] == 0x45 && frame[23] == 6 && !is_open(n, get2(frame + 36));
}

static int is_any(unsigned port) { return port != 0; }    // no segment to a port that is not open comes so far

guard_view node_guard(const node *n) {
    guard_view g = {.secret = n->secret, .has_pages = serves_pages(), .is_served = is_any};
    memcpy(g.own, n->host.own, 4);
    for (unsigned k = 0; k < UIP_SLOTS; k++) {
        const connection *c = n->slots + k;
        uip_row row = node_row(n, k);
        held *h = g.slots + k;
        h->state = c->state, h->port = c->port, h->own_port = c->own_port, h->count = row.count, h->tries = row.tries, h->rcv = c->rcv;
        h->una = c->una + shift_to(n, c->peer, c->port, c->own_port), h->out = c->len;
        memcpy(h->peer, c->peer, 4);
    }
    return g;
}

// What the guard does with what arrived (../guard.c): 0 if it is dropped. A connection that is given up gets a RST of no peer.
static int passes_guard(node *n) {
    guard_view g = node_guard(n);
    judgement by_guard = judge(&g, n->arrived, n->arrived_len);
    counts.dropped += by_guard.what == DROPS, counts.gave_up += by_guard.what == GIVES_UP;
    n->guard[UIP_GUARD_DROPPED] += by_guard.what == DROPS, n->guard[UIP_GUARD_GAVE_UP] += by_guard.what == GIVES_UP;
    if (by_guard.what == GIVES_UP) closed(n->slots + by_guard.slot, NOTHING);
    pages_judged(n, by_guard);
    return by_guard.what != DROPS;
}

int node_protects(node *n, const byte *bytes) {
    if (n->is_used || n->secret.is_set) return 0;
    n->secret.is_set = 1;
    memcpy(n->secret.bytes, bytes, sizeof n->secret.bytes);
    return 1;
}

size_t node_receives(node *n, const byte *frame, size_t len, byte *sent) {
    n->datagram_len = 0, n->arrived = 0, n->is_used = 1;
    if (len <= ETHER_HEAD || len > LONGEST_FRAME) return 0;
    if (memcmp(frame, n->host.mac, 6) && memcmp(frame, everyone, 6)) return 0;
    unsigned type = get2(frame + 12);
    if (type == 0x806) return on_arp(n, frame + ETHER_HEAD, len - ETHER_HEAD, sent);
    if (type != 0x800) return 0;
    if (is_for_closed_port(n, frame, len)) { app_counts.dropped++; return 0; }
    n->arrived = frame + ETHER_HEAD, n->arrived_len = len - ETHER_HEAD;
    if (!passes_guard(n)) return 0;
    pages_count(n);
    return sends(n, on_datagram(n, n->arrived, n->arrived_len, n->datagram), sent);
}

// ---- ticks

// What a tick does with what is outstanding: it waits, sends it again at some ages, or resets at the last.
static const unsigned ages[] = {4, 8, 15, 28, 53, 102, 151, 200, 249};

static step waits(node *n, connection *c) {
    unsigned most = c->state == UIP_SYN_RCVD ? SYN_TRIES : TEXT_TRIES, is_due = 0;
    if (++c->age == ages[most]) return closed(c, A_RESET);
    for (unsigned k = 0; k < most; k++) is_due |= c->age == ages[k];
    if (!is_due) return NOTHING;
    app_counts.again++, n->again++;
    return c->state == UIP_SYN_RCVD ? A_SYN : c->state <= UIP_CLOSE_WAIT ? A_TEXT : A_FIN;
}

static step ticked(node *n, connection *c) {
    switch (c->state) {
    case UIP_CLOSED: return NOTHING;
    case UIP_FIN_WAIT_2:
    case UIP_TIME_WAIT: return ++c->age == REST ? closed(c, NOTHING) : NOTHING;
    case UIP_ESTABLISHED:
        if (c->len) return waits(n, c);
        c->polls += c->polls < most_polls(c);
        return asked(c, 0);
    default: return waits(n, c);
    }
}

size_t node_ticks(node *n, unsigned slot, byte *sent) {
    connection *c = n->slots + slot;
    n->calls++, n->host.ticks += slot == 0, n->arrived = 0, n->is_used = 1;
    return sends(n, send_step(n, c, ticked(n, c), n->datagram), sent);
}

// ---- what the program reads and writes

uip_received node_reads(const node *n, unsigned slot) {
    const connection *c = n->slots + slot;
    int is_up = !is_page(c) && (c->state == UIP_ESTABLISHED || c->state == UIP_CLOSE_WAIT);
    return (uip_received){.ready = (unsigned)node_can_write(n, slot, 0), .port = is_up ? c->own_port : 0,
                          .len = is_up && !c->is_overrun ? c->received_len : 0};
}

// A row, by RFC 793 and the ages at which something is sent again.
uip_row node_row(const node *n, unsigned slot) {
    const connection *c = n->slots + slot;
    uip_row row = {.state = c->state, .port = c->port, .waiting = c->len > 0};
    if (c->state == UIP_CLOSED) return (uip_row){0};
    memcpy(row.peer, c->peer, 4);
    if (c->state == UIP_FIN_WAIT_2 || c->state == UIP_TIME_WAIT) row.count = c->age;
    if (!c->len) return row;
    while (ages[row.tries] <= c->age) row.tries++;
    row.count = ages[row.tries] - c->age - 1;
    return row;
}

int node_can_write(const node *n, unsigned slot, size_t taken) {
    const connection *c = n->slots + slot;
    if (is_page(c) || c->state != UIP_ESTABLISHED) return 0;
    return !c->len && !c->is_overrun && !c->has_last && c->acked == c->text_len && taken <= c->received_len;
}

size_t node_writes(node *n, unsigned slot, size_t taken, const byte *text, size_t len, unsigned last, byte *sent) {
    connection *c = n->slots + slot;
    memmove(c->received, c->received + taken, c->received_len -= taken);
    memcpy(c->message, text, len);
    c->text_len = len, c->acked = 0, c->has_last = last == 1;
    return node_ticks(n, slot, sent);
}
