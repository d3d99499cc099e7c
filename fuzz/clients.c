// Clients behind a link that loses, repeats, reorders and damages. An honest client is a small TCP that asks for a page and compares
// what it receives with the page that docs/FORMATS.md gives for its request: what it has is always a front of it, and behind a plain
// close all of it. Dishonest ones send what they like from addresses of their own.
#include <stdio.h>
#include <string.h>
#include "pages.h"

enum { CLIENTS = 28, HTTP = 80 };
typedef enum { IDLE, OPENING, OPEN, LINGERING, CLOSING, ENDED } state;    // LINGERING: the node has closed, and the client not yet

typedef struct {
    state state;
    byte address[4], request[300], name[64];
    unsigned port, mss, window, piece, first, theirs, next, wait, retries;
    int is_stale, was_answered, was_told;
    size_t request_len, name_len, acked, got;
    page page;    // of the connection that answered last; it begins with its SYN-ACK
} client;

typedef struct { byte address[4]; unsigned port, seq, ack; } stranger;

static client clients[CLIENTS];
static stranger strangers[8];
static queue to_node, from_node;
static const site *asked;
static byte node[4];
static unsigned next_port;
static int may_be_overlong, are_few;    // `are_few`: all clients of the session are on three hosts

static void say(client *c, unsigned flags, size_t at, size_t len) {
    byte datagram[LARGEST];
    segment s = {.from = c->port, .to = HTTP, .seq = c->first + (unsigned)at, .ack = flags & ACK ? c->next : 0, .flags = flags,
                 .window = chance(98) ? c->window : below(70000) & 0xffff, .mss = flags & SYN ? c->mss : 0,
                 .text = c->request + at - 1, .len = len};
    memcpy(s.source, c->address, 4), memcpy(s.target, node, 4);
    enqueue(&to_node, datagram, write_segment(datagram, &s));
}

// Says what is due: a SYN, a piece of the request, or a FIN; else an acknowledgement, where one is asked for.
static void say_due(client *c, int asks_ack) {
    size_t left = c->request_len - c->acked, len = left < c->piece ? left : c->piece;
    if (c->state == OPENING) say(c, SYN, 0, 0);
    else if (c->state == CLOSING) say(c, FIN | ACK, 1 + c->acked, 0);
    else if (c->state == OPEN && len) say(c, ACK | PSH, 1 + c->acked, len);
    else if (asks_ack) say(c, ACK, 1 + c->acked, 0);
    c->wait = between(2, 9);
}

// A request, and the name of the file that it asks for.
static void choose_request(client *c) {
    static const char marks[] = "azAZ09-_.~%&=+";
    static const char *const forms[] = {"GET %.*s HTTP/1.0\r\n\r\n", "GET %.*s\r\n", "GET %.*s?%s HTTP/1.1\r\nHost: node\r\n\r\n",
        "GET %.*s HTTP/1.1\r\nAccept: */*\r\nUser-Agent: fuzz\r\n\r\n", "POST %.*s HTTP/1.0\r\n\r\n", "GET x%.*s HTTP/1.0\r\n\r\n"};
    const byte *name = (const byte *)(chance(50) ? "/" : "/no-such-file");
    size_t len = strlen((const char *)name);
    unsigned form = below(100) < 90 ? below(4) : between(4, 5), query_len = chance(20) ? between(60, 70) : below(40);
    char query_text[80] = "";
    for (unsigned k = 0; k < query_len; k++) query_text[k] = chance(1) ? (char)between(33, 126) : marks[below(sizeof marks - 1)];
    if (asked->count && chance(90)) {
        const file *f = &asked->files[below(asked->count < 12 ? asked->count : 12)];
        name = f->name, len = f->name_len;
    }
    c->request_len = (size_t)snprintf((char *)c->request, sizeof c->request, forms[form], (int)len, (const char *)name, query_text);
    memcpy(c->name, name, c->name_len = form < 4 ? len : 0);
}

// What the page is from its first byte on; a request that is none gets an empty one.
static void begin_page(client *c) {
    if (c->name_len) page_begin(&c->page, asked, c->name, c->name_len);
    else c->page.len = 0, c->page.script = 0, c->page.is_known = c->page.is_whole = 1;
}

static void open_client(client *c) {
    memset(c, 0, offsetof(client, page));
    c->state = OPENING;
    memcpy(c->address, (byte[]){10, 1, (byte)random_next(), (byte)random_next()}, 4);
    if (are_few) c->address[2] = 8, c->address[3] = (byte)below(3);
    c->port = next_port++;
    c->first = (unsigned)random_next();
    c->mss = chance(20) ? 0 : chance(5) ? between(1, 20) : between(40, 2000);
    c->window = chance(80) ? 65535 : between(1, 65535);
    c->piece = chance(20) ? between(1, 10) : between(20, 1460);
    choose_request(c);
    say_due(c, 0);
}

static void take_text(client *c, const segment *s) {
    for (size_t at = 0; at < s->len; at++, c->got++)
        if (c->page.is_known && !c->is_stale)
            WANT(c->got < c->page.len && c->page.bytes[c->got] == s->text[at],
                 "byte %zu of a page of %zu is another", c->got, c->page.len);
    c->next += (unsigned)s->len;
}

static void take_end(client *c) {
    c->next++;
    c->state = chance(20) ? LINGERING : CLOSING;
    counts.pages++;
    if (!c->page.is_known || c->is_stale) return;
    WANT(c->page.is_whole && c->got == c->page.len, "%zu bytes of a page of %zu came before a plain close", c->got, c->page.len);
    counts.whole++;
}

static void hear_open(client *c, const segment *s) {
    size_t acked = s->ack - c->first - 1, due = c->request_len - c->acked;
    if (s->flags & SYN) { say_due(c, 1); return; }
    if (c->state == CLOSING && acked == c->acked + 1) { c->state = ENDED; return; }
    if (acked > c->acked && acked - c->acked <= (due < c->piece ? due : c->piece)) c->acked = acked;
    if (s->len == 0 && !(s->flags & FIN)) { if (acked < c->request_len && chance(50)) say_due(c, 0); return; }
    if (s->seq == c->next && c->state == OPEN) {
        take_text(c, s);
        if (s->flags & FIN) take_end(c);
    }
    say_due(c, 1);
}

static void client_hears(client *c, const segment *s) {
    if (c->state == IDLE || c->state == ENDED) return;
    if (s->flags & RST) {
        if (c->state == OPENING ? s->ack == c->first + 1 : s->seq == c->next) c->state = ENDED;
        return;
    }
    if (c->state != OPENING) { hear_open(c, s); return; }
    if ((s->flags & (SYN | ACK)) != (SYN | ACK) || s->ack != c->first + 1) return;
    c->next = s->seq + 1;
    c->state = OPEN;
    say_due(c, 1);
}

static client *client_of(const segment *s) {
    for (unsigned k = 0; k < CLIENTS; k++)
        if (clients[k].state != IDLE && clients[k].port == s->to && !memcmp(clients[k].address, s->target, 4)) return &clients[k];
    return 0;
}

// The page is fixed as it is sent: a call's text is of the moment at which it is sent first, and begins a segment. What is sent again is
// compared with what was sent first.
static void page_was_sent(client *c, const segment *s) {
    page *p = &c->page;
    size_t at = s->seq - c->theirs - 1, end = at + s->len;
    WANT(at <= LONGEST_PAGE || !p->is_known, "a segment from byte %zu of a page", at);
    if (p->is_known && p->call_at && at == p->call_at && end <= p->len && s->len) counts.changed += value_has_changed(p);
    while (p->is_known && !p->is_whole && (p->len < end || s->flags & FIN)) {
        size_t before = p->len;
        int is_call = page_goes_on(p);
        WANT(!is_call || p->len == before || before == at, "a call's text at byte %zu was sent with byte %zu", before, at);
        counts.shown += is_call && p->len > before;
    }
    if (!p->is_known) return;
    WANT(end <= p->len && !memcmp(p->bytes + at, s->text, s->len),
         "bytes %zu to %zu of a page of %zu were sent otherwise", at, end, p->len);
    WANT(!(s->flags & FIN) || (p->is_whole && end == p->len), "a page of %zu bytes was closed behind %zu", p->len, end);
}

// A client is stale once a second connection answers it: what it has got is then not compared any more, but what is sent is. No segment
// is longer than the client asked for.
void heard_back(const byte *datagram, size_t len, int is_lost) {
    segment s;
    if (!is_lost) enqueue(&from_node, datagram, len);
    if (!read_segment(datagram, len, &s)) return;
    for (unsigned k = 0; k < 8; k++)
        if (strangers[k].port == s.to && !memcmp(strangers[k].address, s.target, 4)) strangers[k].seq = s.seq, strangers[k].ack = s.ack;
    client *c = client_of(&s);
    if (!c) return;
    WANT(s.len <= (c->mss ? c->mss : 536) && s.len <= 1460, "a segment of %zu bytes went to a client that takes %u", s.len, c->mss);
    if (s.flags & RST) return;
    if (!(s.flags & SYN)) {
        if (s.len || s.flags & FIN) c->was_told = 1, page_was_sent(c, &s);
        return;
    }
    if (c->was_answered && (c->theirs != s.seq || c->was_told)) c->is_stale = 1;
    c->was_answered = 1, c->was_told = 0, c->theirs = s.seq;
    begin_page(c);
}

static void deliver_back(void) {
    byte datagram[LARGEST];
    segment s;
    size_t len = dequeue(&from_node, datagram);
    client *c = len && read_segment(datagram, len, &s) ? client_of(&s) : 0;
    if (c) client_hears(c, &s);
}

// What a stranger sends: near its connection or far from it, with any flags, at times damaged, with right checksums or with wrong ones.
static void stranger_acts(void) {
    static const unsigned usual[] = {SYN, ACK, ACK | PSH, FIN | ACK, RST, SYN | ACK, 0, 0x3f, RST | ACK, FIN};
    byte datagram[LARGEST], words[LARGEST];
    stranger *k = &strangers[below(8)];
    segment s = {.from = k->port, .to = chance(95) ? HTTP : below(65536), .seq = k->ack, .ack = k->seq + below(3), .window = below(65536),
                 .flags = chance(70) ? usual[below(10)] : below(64), .mss = chance(20) ? below(65536) : 0, .text = words};
    if (chance(20)) s.seq += below(40) - 20;
    if (chance(20)) s.ack += below(3000) - 1500;
    if (chance(3)) s.ack -= between(65530, 65540);
    if (chance(3)) s.seq += between(1458, 1464);
    if (chance(30)) s.len = (size_t)snprintf((char *)words, sizeof words, "GET /%u HTTP/1.0\r\n\r\n", below(30));
    else if (chance(20)) random_bytes(words, s.len = below(1400));
    memcpy(s.source, chance(95) ? k->address : node, 4), memcpy(s.target, chance(97) ? node : k->address, 4);
    size_t len = write_segment(datagram, &s);
    if (chance(25)) {
        for (unsigned n = between(1, 3); n; n--) datagram[chance(70) ? below(40) : below((unsigned)len)] = (byte)random_next();
        if (chance(70)) repair_sums(datagram, len);
    }
    if (chance(5)) len = between(1, (unsigned)len);
    devices_hear_datagram(datagram, len);
}

static void ping(void) {
    byte datagram[LARGEST], source[4];
    random_bytes(source, 4);
    if (chance(5)) memcpy(source, node, 4);
    size_t len = write_ping(datagram, source, node, below(chance(10) ? 1473 : 80));
    if (chance(20)) {
        datagram[below((unsigned)len)] = (byte)random_next();
        if (chance(60)) repair_sums(datagram, len);
    }
    if (chance(3)) len = between(1, (unsigned)len);
    devices_hear_datagram(datagram, len);
}

// Bytes that are no frame, or none that anybody meant. Where no frame may be overlong, each noise begins with an END.
static void noise(void) {
    static byte bytes[8000];
    size_t len = may_be_overlong && chance(10) ? between(1400, 8000) : between(1, 300);
    int is_marked = chance(50);
    for (size_t at = 0; at < len; at++) {
        bytes[at] = (byte)random_next();
        if (is_marked && chance(60)) bytes[at] = (byte[]){0xc0, 0xdb, 0xdc, 0xdd}[below(4)];
    }
    if (len > 1400) for (size_t at = 0; at < len; at++) if (bytes[at] == 0xc0 && at % 1600 != 3) bytes[at] = 1;
    if (!may_be_overlong) bytes[0] = 0xc0;
    devices_hear(bytes, len);
}

static void deliver(void) {
    byte datagram[LARGEST];
    size_t len = dequeue(&to_node, datagram);
    if (len) devices_hear_datagram(datagram, len);
}

void clients_act(void) {
    unsigned kind = below(100);
    client *c = &clients[below(CLIENTS)];
    if (kind < 40) deliver();
    else if (kind < 80) deliver_back();
    else if (kind < 86) { if (c->state == IDLE || c->state == ENDED) open_client(c); }
    else if (kind < 92) stranger_acts();
    else if (kind < 95) ping();
    else if (kind < 97) noise();
    else if (chance(40)) forge_one();
    else if (c->state == OPEN && chance(3)) say(c, RST, 1 + c->acked, 0), c->state = ENDED;
}

int client_peer(byte *address, unsigned *port) {
    const client *c = &clients[below(CLIENTS)];
    memcpy(address, c->address, 4), *port = c->port;
    return c->state == OPEN;
}

void clients_tick(void) {
    for (unsigned k = 0; k < CLIENTS; k++) {
        client *c = &clients[k];
        if (c->state == IDLE || c->state == ENDED || (c->wait && --c->wait)) continue;
        if (++c->retries > 60) c->state = ENDED;
        else if (c->state == LINGERING && chance(90)) c->wait = between(2, 9);
        else if (c->state == LINGERING) c->state = CLOSING, say_due(c, 0);
        else say_due(c, c->state == OPEN && chance(20));
    }
}

void clients_begin(const site *s, const byte *own, int overlong) {
    memset(clients, 0, sizeof clients);
    memcpy(node, own, 4);
    to_node.count = from_node.count = 0;
    asked = s, may_be_overlong = overlong, are_few = chance(30), next_port = between(1024, 30000);
    for (unsigned k = 0; k < 8; k++) {
        memcpy(strangers[k].address, (byte[]){172, 16, (byte)k, (byte)random_next()}, 4);
        strangers[k].port = between(1, 65535);
    }
}
