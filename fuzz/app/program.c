// The program, which opens ports of a device and answers its connections: by lines, by any number of bytes, late, or without being asked. A
// second device is open at the same time, and gets some of the same frames: the two share nothing. Between its calls come wrong ones.
#include <string.h>
#include "app.h"

enum { AREA = 2048, RECENT = 16, PORTS = 7 };
typedef enum { BY_LINES, BY_BYTES, LATE } manner;

device devices[2];
static byte recent[RECENT][4];    // addresses that sent a datagram
static manner how;
// The ports that this session tries to open: more than can be. Those that the program opened, a bit for each, by device.
static unsigned ports[PORTS], listened[2];

static size_t some_room(void) { return chance(90) ? UIP_MAX_FRAME : between(UIP_MAX_FRAME, 4000); }

// ---- ports

static void choose_ports(void) {
    for (unsigned k = 0; k < PORTS; k++) {
        unsigned port = chance(50) ? between(1, 65535) : (unsigned[]){5025, 502, 1, 79, 81, 65535, 0x5000}[k];
        if (k && chance(30)) port = ports[k - 1] ^ (chance(50) ? 1 : 0x100);    // it differs from another one in one byte
        ports[k] = port == 0 || port == WEB_PORT ? 23 : port;
    }
    listened[0] = listened[1] = 0;
}

int is_open_port(const device *d, unsigned port) {
    for (unsigned k = 0; k < PORTS; k++) if (ports[k] == port && listened[d - devices] >> k & 1) return 1;
    return 0;
}

unsigned some_port(void) {
    unsigned first = below(PORTS);
    for (unsigned k = 0; k < PORTS && chance(96); k++)
        if (listened[0] >> (first + k) % PORTS & 1) return ports[(first + k) % PORTS];
    return ports[first];
}

void listen_somewhere(device *d) {
    unsigned k = below(PORTS);
    if (call_listen(d, ports[k])) listened[d - devices] |= 1u << k;
}

// Nothing comes from a port that the program did not open, but from port 80 if there are pages.
static void is_from_open_port(const device *d, const byte *datagram) {
    unsigned port = (unsigned)datagram[20] << 8 | datagram[21];
    if (datagram[9] != 6 || (serves_pages() && port == WEB_PORT)) return;
    WANT(is_open_port(d, port), "a segment was sent from port %u, which the program did not open", port);
}

// ----

// A datagram that the first device sent goes to its peers.
void pass_on(device *d, const sent_frame *sent, int is_reply) {
    const byte *datagram = sent->bytes + ETHER_HEAD;
    int is_datagram = sent->len && sent->bytes[13] == 0;
    if (is_datagram) is_from_open_port(d, datagram);
    if (d != devices) return;
    int is_page = pages_see(sent->len && !is_datagram);
    if (is_datagram && is_page) strangers_get(datagram, sent->len - ETHER_HEAD);
    else if (is_datagram) peers_get(datagram, sent->len - ETHER_HEAD, is_reply);
}

static void receive(device *d, const byte *frame, size_t len) {
    sent_frame sent;
    size_t room = some_room();
    call_frame(d, frame, len, room < len ? len : room, &sent);
    pass_on(d, &sent, 1);
}

// ---- frames of ARP, and frames that are dropped

static void teach(device *d, const byte *address) {
    byte frame[200], mac[6];
    const host *h = &d->node.host;
    size_t padding = chance(40) ? below(100) : 0;
    mac_of(mac, address);
    write_arp(frame, chance(50) ? everyone : h->mac, between(1, 2), mac, address, chance(50) ? everyone : h->mac, h->own);
    random_bytes(frame + ARP_LEN, padding);
    counts.taught++;
    receive(d, frame, ARP_LEN + padding);
}

// A frame like one of ARP or of a datagram with some of its bytes changed, cut or longer: mostly dropped, and foretold in any case. It is not
// sent if its checksums are right all the same: it would be another segment of a client, whose bytes are compared.
static void odd_frame(device *d, const byte *datagram, size_t len) {
    static byte frame[AREA];
    byte mac[6];
    const byte *address = recent[below(RECENT)];
    const host *h = &d->node.host;
    mac_of(mac, address);
    size_t frame_len = write_arp(frame, chance(50) ? everyone : h->mac, between(1, 2), mac, address, h->mac, h->own);
    if (chance(50)) {
        frame_len = write_ether(frame, chance(50) ? everyone : h->mac, mac, 0x800) + len;
        memcpy(frame + ETHER_HEAD, datagram, len);
    }
    for (unsigned k = below(3); k; k--) frame[chance(80) ? below(ARP_LEN) : below((unsigned)frame_len)] = (byte)random_next();
    int is_datagram = frame[12] == 8 && frame[13] == 0;
    if (is_datagram && !fault_of(h->own, frame + ETHER_HEAD, frame_len - ETHER_HEAD) && memcmp(frame + ETHER_HEAD, datagram, len)) return;
    if (chance(20)) frame_len = below(chance(50) ? 43 : (unsigned)frame_len + 1);
    else if (chance(5)) random_bytes(frame + frame_len, AREA - frame_len), frame_len = between(1500, 1600);
    receive(d, frame, frame_len);
}

// ---- the program

static void write_to(device *d, unsigned slot, size_t taken, unsigned last) {
    static byte text[UIP_MAX_MESSAGE];
    sent_frame sent;
    size_t len = chance(10) ? 0 : chance(20) ? UIP_MAX_MESSAGE : between(1, chance(50) ? 20 : UIP_MAX_MESSAGE);
    random_bytes(text, len);
    client *peer = d == devices ? peer_of(d->node.slots + slot) : 0;
    if (!call_write(d, slot, taken, text, len, last, some_room(), &sent)) return;
    if (peer) peer_was_written(peer, taken, text, len, last);
    pass_on(d, &sent, 0);
}

// Reads a connection, and perhaps answers it.
static void answer(device *d, unsigned slot) {
    byte bytes[UIP_MAX_RECEIVED], *end = 0;
    size_t room = chance(90) ? sizeof bytes : below(sizeof bytes);
    uip_received it = call_read(d, slot, room, bytes);
    size_t len = it.len < room ? it.len : room, taken = 0;
    client *peer = d == devices && it.port ? peer_of(d->node.slots + slot) : 0;
    if (peer) peer_was_read(peer, bytes, len);
    if (!it.ready) {
        if (chance(20)) write_to(d, slot, chance(50) ? 0 : below(140), chance(3));    // UIP_NOT_READY
        return;
    }
    if (chance(3)) { write_to(d, slot, chance(80) ? it.len + 1 : it.len + random_next(), 0); return; }
    if (len) end = memchr(bytes, '\n', len);
    if (how == BY_LINES) taken = end ? (size_t)(end - bytes) + 1 : 0;
    else taken = chance(30) ? it.len : below((unsigned)it.len + 1);
    if (taken == 0 && !chance(2)) return;
    write_to(d, slot, taken, chance(3));
}

static void serve(device *d) {
    if (!chance(how == LATE ? 5 : 60)) return;
    for (unsigned slot = 0; slot < UIP_SLOTS; slot++) {
        const connection *c = d->node.slots + slot;
        if (chance(c->state && c->own_port != WEB_PORT ? 40 : 2)) answer(d, slot);
    }
    if (chance(2)) wrong_call(d);
    if (chance(2)) listen_somewhere(d);
}

// ---- what comes

void receive_datagram(const byte *datagram, size_t len) {
    static byte frame[AREA];
    byte mac[6] = {2};
    device *d = devices;
    const host *h = &d->node.host;
    int is_sound = len >= 20 && len == ((size_t)datagram[2] << 8 | datagram[3]);
    if (len >= 20) memcpy(recent[below(RECENT)], datagram + 12, 4), mac_of(mac, datagram + 12);
    if (len >= 20 && !known(h, hop_to(h, datagram + 12)) && chance(80)) teach(d, hop_to(h, datagram + 12));
    if (chance(5)) teach(d, recent[below(RECENT)]);
    if (chance(4)) odd_frame(d, datagram, len);
    if (chance(2)) wrong_call(d);
    size_t frame_len = write_ether(frame, chance(95) ? h->mac : everyone, mac, 0x800) + len;
    memcpy(frame + ETHER_HEAD, datagram, len);
    while (is_sound && frame_len < LONGEST_FRAME && (frame_len < 60 || chance(40))) frame[frame_len++] = (byte)random_next();    // padding
    receive(d, frame, frame_len);
    serve(d);
    if (!chance(20) || (serves_pages() && datagram[22] == 0 && datagram[23] == WEB_PORT)) return;
    if (chance(50)) teach(devices + 1, hop_to(&devices[1].node.host, datagram + 12));
    receive(devices + 1, frame, frame_len);
    serve(devices + 1);
}

void forge_one(void) {
    byte datagram[LARGEST];
    guard_view g = node_guard(&devices->node);
    size_t len = forge(&g, datagram);
    if (len) receive_datagram(datagram, len);
}

// Noise in a frame to the first device, of IP, of ARP or of another type.
void receive_noise(const byte *bytes, size_t len) {
    static byte frame[AREA];
    const host *h = &devices->node.host;
    if (len > LARGEST + 40) len = LARGEST + 40;
    write_ether(frame, chance(50) ? h->mac : everyone, bytes, chance(60) ? 0x800 : chance(60) ? 0x806 : below(65536));
    memcpy(frame + ETHER_HEAD, bytes, len);
    receive(devices, frame, ETHER_HEAD + len);
}

void tick(unsigned slot) {
    for (device *d = devices; d < devices + 2; d++) {
        sent_frame sent;
        if (d != devices && chance(50)) continue;
        call_tick(d, slot, some_room(), &sent);
        pass_on(d, &sent, 0);
        const connection *c = d->node.slots + slot;
        if (c->state && (c->own_port != WEB_PORT || chance(5))) answer(d, slot);
    }
}

// Nothing comes for this number of ticks.
void silence(unsigned ticks) {
    sent_frame sent;
    app_counts.silences++;
    for (unsigned n = 0; n < ticks * UIP_SLOTS; n++) {
        call_tick(devices, n % UIP_SLOTS, UIP_MAX_FRAME, &sent);
        pass_on(devices, &sent, 0);
    }
}

// ---- a session

static void open_device(device *d, const byte *own, const byte *mac) {
    byte mask[4], router[4];
    choose_network(own, mask, router);
    for (unsigned k = below(3); k; k--) wrong_call(d);
    pages_open_badly(d, own, mac, mask, router);
    if (chance(50)) heap_refuses = between(1, DEVICE_BLOCKS + 1);
    call_open(d, own, mac, mask, router);
    if (!d->on.is_open) call_open(d, own, mac, mask, router);
    if (chance(30)) call_open(d, own, mac, mask, router);    // UIP_HAS_DEVICE
    if (chance(70)) call_secret(d);
}

void program_begin(void) {
    byte own[4] = {10, 0, 0, 1}, mac[6];
    if (chance(50)) random_bytes(own, 4);
    do random_bytes(mac, 6); while (!memcmp(mac, everyone, 6));
    mac[0] = 4;    // no peer has such a one
    how = (manner)below(3);
    random_bytes(recent[0], sizeof recent);
    WANT(heap_blocks == 0, "%zu blocks are taken without a device", heap_blocks);
    pages_choose();
    choose_ports();
    open_device(devices, own, mac);
    open_device(devices + 1, own, mac);
    for (unsigned k = chance(15) ? 0 : between(2, 8); k; k--) listen_somewhere(devices + chance(40));
    peers_begin(own);
    pages_begin(own);
}

void program_end(void) {
    unsigned first = below(2);
    for (unsigned k = 0; k < 2; k++) {
        call_close(devices + (first ^ k));
        for (unsigned n = below(4); n; n--) wrong_call(devices + (first ^ k));
    }
    WANT(heap_blocks == 0, "%zu blocks are left after " NAMED(close), heap_blocks);
}
