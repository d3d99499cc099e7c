// Clients and strangers at the other end of a link that loses, repeats, reorders and damages. A client is a small TCP: it opens a
// connection at one of the ports of the session, mostly one that is open, sends bytes, and compares what it receives with what the program
// wrote: it is always a prefix of the messages, and after a plain close all of them. The bytes that the program reads are a prefix of those
// that the client sent. Strangers send what they like.
#include <stdio.h>
#include <string.h>
#include "app.h"

enum { CLIENTS = 14, STRANGERS = 6, MOST_WRITTEN = 1 << 15 };
typedef enum { IDLE, OPENING, OPEN, CLOSING, ENDED } state;

// `total` bytes are sent and `sent` of them acknowledged; the program took `taken` of them, and wrote `written` bytes, of which `got` came.
struct client {
    state state;
    byte address[4];
    unsigned port, own_port, mss, window, piece, first, theirs, next, wait, retries, answers, seed;
    int is_greedy, has_last, got_fin, is_early;    // `is_early`: its port was not open when it began
    size_t total, sent, got, taken, written;
    byte messages[MOST_WRITTEN];
};
typedef struct { byte address[4]; unsigned port, own_port, seq, ack; } stranger;

static client clients[CLIENTS];
static stranger strangers[STRANGERS];
static queue to_node, from_node;
static byte node_address[4];
static unsigned next_port;
static int are_few;    // all clients of the session are on three hosts

// A byte that a client sends: one in sixteen is a line feed.
static byte byte_of(const client *c, size_t at) {
    unsigned x = (c->seed + (unsigned)at) * 0x9e3779b9u;
    x = (x ^ x >> 15) * 0x85ebca6bu;
    return (x >> 8 & 15) == 0 ? '\n' : (byte)(x >> 16);
}

static void send_segment(client *c, unsigned flags, size_t at, size_t len) {
    byte datagram[LARGEST], text[LARGEST];
    for (size_t k = 0; k < len; k++) text[k] = byte_of(c, at - 1 + k);
    segment s = {.from = c->port, .to = c->own_port, .seq = c->first + (unsigned)at, .ack = flags & ACK ? c->next : 0, .flags = flags,
                 .window = chance(98) ? c->window : below(70000) & 0xffff, .mss = flags & SYN ? c->mss : 0, .text = text, .len = len};
    memcpy(s.source, c->address, 4), memcpy(s.target, node_address, 4);
    enqueue(&to_node, datagram, write_segment(datagram, &s));
}

// Sends what is due: a SYN, a piece of text, or a FIN; else an acknowledgement, if one is asked for. A client that is not greedy sends no
// more than a connection can store.
static void say_due(client *c, int asks_ack) {
    size_t left = c->total - c->sent, stored = c->sent - c->taken, len = left < c->piece ? left : c->piece;
    if (!c->is_greedy && stored + len > UIP_MAX_RECEIVED) len = stored < UIP_MAX_RECEIVED ? UIP_MAX_RECEIVED - stored : 0;
    if (c->state == OPENING) send_segment(c, SYN, 0, 0);
    else if (c->state == CLOSING) send_segment(c, FIN | ACK, 1 + c->sent, 0);
    else if (c->state == OPEN && len) send_segment(c, ACK | PSH, 1 + c->sent, len);
    else if (asks_ack) send_segment(c, ACK, 1 + c->sent, 0);
    c->wait = between(2, 9);
}

// The address and the port of a client that requests a page, if no client had both at these ports.
static void share_peer(client *c) {
    byte address[4];
    unsigned port;
    if (!pages_peer(address, &port)) return;
    for (client *k = clients; k < clients + CLIENTS; k++) if (k->port == port && !memcmp(k->address, address, 4)) return;
    memcpy(c->address, address, 4), c->port = port;
}

static void open_client(client *c) {
    memset(c, 0, offsetof(client, messages));
    c->state = OPENING;
    memcpy(c->address, (byte[]){10, 1, (byte)random_next(), (byte)random_next()}, 4);
    if (chance(50)) memcpy(c->address, node_address, 3);
    if (are_few) memcpy(c->address, (byte[]){10, 1, 9, (byte)below(3)}, 4);
    c->port = next_port++, c->own_port = some_port();
    c->is_early = !is_open_port(devices, c->own_port);
    if (serves_pages() && chance(40)) share_peer(c);
    c->first = (unsigned)random_next(), c->seed = (unsigned)random_next();
    c->mss = chance(20) ? 0 : chance(10) ? between(1, 20) : between(40, 2000);
    c->window = chance(80) ? 65535 : between(1, 65535);
    c->piece = chance(20) ? between(1, 10) : between(5, 128);
    c->is_greedy = chance(8);
    if (c->is_greedy) c->piece = between(60, 1460);
    c->total = chance(20) ? 0 : chance(80) ? between(1, 600) : between(600, 4000);
    say_due(c, 0);
}

// ---- what the program reads and writes

// The client whose connection this is; 0 for a stranger, and for a client that was answered twice: a segment of its older connection may
// be taken as one of the newer then.
client *peer_of(const connection *c) {
    for (client *p = clients; p < clients + CLIENTS; p++) {
        int is_its = p->port == c->port && p->own_port == c->own_port && !memcmp(p->address, c->peer, 4);
        if (is_its && p->state != IDLE && p->answers == 1) return p;
    }
    return 0;
}

void peer_was_read(client *c, const byte *bytes, size_t len) {
    for (size_t k = 0; k < len; k++)
        WANT(bytes[k] == byte_of(c, c->taken + k), "byte %zu that the program reads is not the one that the client sent", c->taken + k);
}

void peer_was_written(client *c, size_t taken, const byte *text, size_t len, unsigned last) {
    c->taken += taken, app_counts.taken += taken;
    if (c->written + len > MOST_WRITTEN) c->answers = 2;    // it is compared no more
    else memcpy(c->messages + c->written, text, len), c->written += len;
    c->has_last = last == 1;
}

// ---- what a client receives

static void take_text(client *c, const segment *s) {
    for (size_t k = 0; k < s->len && c->answers == 1; k++)
        WANT(c->got + k < c->written && c->messages[c->got + k] == s->text[k], "byte %zu of %zu that were written is another at the client",
             c->got + k, c->written);
    c->got += s->len, c->next += (unsigned)s->len;
    app_counts.compared += c->answers == 1 ? s->len : 0;
}

// A client closes its side at once, or sends on for a while.
static void take_fin(client *c) {
    c->next++, c->got_fin = 1;
    if (chance(50)) c->state = CLOSING;
    app_counts.ends++;
    if (c->answers == 1) WANT(c->has_last && c->got == c->written, "%zu of %zu bytes came before a plain close", c->got, c->written);
}

static void get_open(client *c, const segment *s) {
    size_t acked = s->ack - c->first - 1, due = c->total - c->sent;
    if (s->flags & SYN) { say_due(c, 1); return; }
    int is_closed = c->state == CLOSING && acked == c->sent + 1;
    if (is_closed && c->got_fin) { c->state = ENDED; return; }
    if (acked > c->sent && acked - c->sent <= (due < c->piece ? due : c->piece)) c->sent = acked;
    if (s->len == 0 && !(s->flags & FIN)) { if (chance(50)) say_due(c, 0); return; }
    if (s->seq == c->next && !c->got_fin) {
        take_text(c, s);
        if (s->flags & FIN) take_fin(c);
    }
    say_due(c, 1);
}

static void client_gets(client *c, const segment *s) {
    if (c->state == IDLE || c->state == ENDED) return;
    if (s->flags & RST) {
        if (c->state == OPENING ? s->ack == c->first + 1 : s->seq == c->next) c->state = ENDED;
        return;
    }
    if (c->state != OPENING) { get_open(c, s); return; }
    if ((s->flags & (SYN | ACK)) != (SYN | ACK) || s->ack != c->first + 1) return;
    c->next = s->seq + 1, c->state = OPEN;
    say_due(c, 1);
}

static client *client_of(const segment *s) {
    for (client *c = clients; c < clients + CLIENTS; c++)
        if (c->state != IDLE && c->port == s->to && c->own_port == s->from && !memcmp(c->address, s->target, 4)) return c;
    return 0;
}

// A stranger continues the connection that a segment came from.
void strangers_get(const byte *datagram, size_t len) {
    segment s;
    if (!read_segment(datagram, len, &s)) return;
    for (stranger *k = strangers; k < strangers + STRANGERS; k++)
        if (k->port == s.to && !memcmp(k->address, s.target, 4)) k->seq = s.seq + (unsigned)s.len, k->ack = s.ack, k->own_port = s.from;
}

// A SYN that is answered opens a connection; one that a tick sends is sent again. No segment is longer than the client asked for.
void peers_get(const byte *datagram, size_t len, int is_reply) {
    segment s;
    counts.datagrams++;
    if (!read_segment(datagram, len, &s)) {
        WANT(is_reply && is_sound_reply(datagram, len), "what was sent is neither a sound segment nor a sound echo reply");
        counts.pings++;
        return;
    }
    enqueue(&from_node, datagram, len);
    strangers_get(datagram, len);
    client *c = client_of(&s);
    if (!c) return;
    WANT(s.len <= (c->mss ? c->mss : 536) && s.len <= 1460, "a segment of %zu bytes went to a client that takes %u", s.len, c->mss);
    if (s.flags & SYN && is_reply) c->answers++, c->theirs = s.seq, app_counts.early += c->is_early;
}

static void deliver_back(void) {
    byte datagram[LARGEST];
    segment s;
    size_t len = dequeue(&from_node, datagram);
    client *c = len && read_segment(datagram, len, &s) ? client_of(&s) : 0;
    if (c) client_gets(c, &s);
}

// ---- strangers

// Bytes in the place of options, at times the text, or damage.
static size_t disfigure(byte *datagram, size_t len) {
    size_t most = (len - 40) / 4, words = most < 10 ? most : 10;
    if (chance(40) && words) {
        words = between(1, (unsigned)words);
        datagram[32] = (byte)((5 + words) << 4);
        for (size_t at = 40; at < 40 + 4 * words; at++) if (chance(70)) datagram[at] = (byte)below(6);
    } else {
        for (unsigned n = between(1, 3); n; n--) datagram[chance(70) ? below(40) : below((unsigned)len)] = (byte)random_next();
    }
    if (chance(80)) repair_sums(datagram, len);
    return chance(10) ? between(1, (unsigned)len) : len;
}

// What a stranger sends: near its connection or far from it, with any flags, at times damaged, with right checksums or with wrong ones.
static void stranger_acts(void) {
    static const unsigned usual[] = {SYN, ACK, ACK | PSH, FIN | ACK, RST, SYN | ACK, 0, 0x3f, RST | ACK, FIN};
    byte datagram[LARGEST], words[LARGEST];
    stranger *k = &strangers[below(STRANGERS)];
    segment s = {.from = k->port, .to = chance(95) ? k->own_port : below(65536), .seq = k->ack, .ack = k->seq + below(3),
                 .window = chance(50) ? below(65536) : below(50), .flags = chance(70) ? usual[below(10)] : below(64),
                 .mss = chance(20) ? below(65536) : 0, .text = words};
    if (chance(40)) s.flags = chance(50) ? ACK : ACK | PSH;
    if (serves_pages() && chance(10)) s.to = chance(50) ? WEB_PORT : some_port(), s.flags = SYN;    // a second connection of the same port
    if (chance(20)) s.seq += below(40) - 20;
    if (chance(20)) s.ack += below(600) - 300;
    if (chance(3)) s.ack -= between(65530, 65540);
    if (chance(3)) s.seq += between(1458, 1464);
    if (chance(40)) random_bytes(words, s.len = below(130));
    else if (chance(10)) random_bytes(words, s.len = below(1400));
    else if (k->own_port == WEB_PORT && chance(30)) s.len = (size_t)snprintf((char *)words, sizeof words, "GET /?%u\r\n", below(30));
    memcpy(s.source, chance(95) ? k->address : node_address, 4), memcpy(s.target, chance(97) ? node_address : k->address, 4);
    if (chance(3)) k->own_port = some_port();
    size_t len = write_segment(datagram, &s);
    receive_datagram(datagram, chance(25) ? disfigure(datagram, len) : len);
}

static void ping(void) {
    byte datagram[LARGEST], source[4];
    random_bytes(source, 4);
    if (chance(5)) memcpy(source, node_address, 4);
    size_t len = write_ping(datagram, source, node_address, below(chance(10) ? 1473 : 80));
    if (chance(20)) {
        datagram[below((unsigned)len)] = (byte)random_next();
        if (chance(60)) repair_sums(datagram, len);
    }
    receive_datagram(datagram, chance(3) ? between(1, (unsigned)len) : len);
}

// ---- all of them

void peers_act(void) {
    byte datagram[LARGEST];
    unsigned kind = below(100);
    client *c = &clients[below(CLIENTS)];
    if (kind < 42) {
        size_t len = dequeue(&to_node, datagram);
        if (len) receive_datagram(datagram, len);
    }
    else if (kind < 84) deliver_back();
    else if (kind < 88) { if (c->state == IDLE || c->state == ENDED) open_client(c); }
    else if (kind < 96) stranger_acts();
    else if (kind < 98) ping();
    else if (chance(40)) forge_one();
    else if (c->state == OPEN && chance(4)) send_segment(c, RST, 1 + c->sent, 0), c->state = ENDED;
    else if (c->state == OPEN && chance(c->has_last || c->got_fin ? 60 : 4)) c->state = CLOSING, say_due(c, 0);
}

void peers_tick(void) {
    for (client *c = clients; c < clients + CLIENTS; c++) {
        if (c->state == IDLE || c->state == ENDED || (c->wait && --c->wait)) continue;
        if (++c->retries > (is_open_port(devices, c->own_port) ? 60 : 12)) c->state = ENDED;
        else say_due(c, c->state == OPEN && chance(20));
    }
}

void peers_begin(const byte *own) {
    memset(clients, 0, sizeof clients);
    memcpy(node_address, own, 4);
    to_node.count = from_node.count = 0;
    next_port = between(1024, 30000), are_few = chance(30);
    for (unsigned k = 0; k < STRANGERS; k++) {
        memcpy(strangers[k].address, (byte[]){172, 16, (byte)k, (byte)random_next()}, 4);
        if (chance(50)) memcpy(strangers[k].address, own, 3);
        strangers[k].port = between(1, 65535), strangers[k].own_port = some_port();
    }
}
