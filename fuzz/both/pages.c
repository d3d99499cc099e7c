// The pages at port 80 of a node that answers for a program too, as docs/FORMATS.md describes them: what a connection sends, so that
// node.c foretells each frame. The clients of ../clients.c request them. Hits and queries follow from what arrives and is sent
// (../requests.c), and counters from the same datagrams (../model.c).
#include <stdio.h>
#include <string.h>
#include "../app/app.h"

model counted;
static site served;
static text image;
static struct { request request; page page; int is_refused; } pages[UIP_SLOTS];
static unsigned long read_rows, by_arp, full, twins, reports, whole_ticks;

int serves_pages(void) { return 1; }

// ---- what a connection sends

void pages_judged(const node *n, judgement by_guard) { if (n == &devices->node) model_judged(&counted, by_guard); }

void pages_count(const node *n) { if (n == &devices->node) model_hears(&counted, n->arrived, n->arrived_len); }

// [add: counter] a number that the model does not foretell
static unsigned counter_of(const node *n, unsigned number) {
    return number == UIP_RETRANSMISSIONS ? n->again : number == UIP_SYN_DROPPED ? n->no_slot : counted.numbers[number];
}

// The rows of the connections, or the counters, at this moment.
static size_t report(int is_rows, byte *to) {
    static const char *const states[] = {"", "SYN-RCVD", "ESTABLISHED", "CLOSE-WAIT", "FIN-WAIT-1", "FIN-WAIT-2", "CLOSING", "TIME-WAIT",
        "LAST-ACK"};
    char *text = (char *)to;
    const node *n = &devices->node;
    for (unsigned number = 1; !is_rows && number <= UIP_COUNTERS; number++) text += sprintf(text, "%10u\n", counter_of(n, number));
    for (unsigned slot = 0; is_rows && slot < UIP_SLOTS; slot++) {
        uip_row row = node_row(n, slot);
        const byte *peer = row.peer;
        if (row.state == UIP_CLOSED) continue;
        text += sprintf(text, "<tr><td>%u</td><td>%u.%u.%u.%u:%u</td>", slot, peer[0], peer[1], peer[2], peer[3], row.port);
        text += sprintf(text, "<td>%s</td><td>%u</td><td>%u</td><td>%c</td></tr>\r\n", states[row.state], row.tries, row.count,
                        row.waiting ? '*' : ' ');
    }
    reports++;
    return (size_t)(text - (char *)to);
}

void page_opens(connection *c) {
    size_t slot = (size_t)(c - devices->node.slots);
    memset(&pages[slot].request, 0, sizeof pages[slot].request);
    pages[slot].is_refused = 0;
    c->text = pages[slot].page.bytes;
}

// The target is that of a page, or none: then, and if the first word is not GET, nothing is sent but a FIN.
void page_receives(connection *c, const byte *bytes, size_t len) {
    size_t slot = (size_t)(c - devices->node.slots), name_len = 0;
    request *r = &pages[slot].request;
    for (size_t at = 0; at < len && r->stage != DECIDED; at++) {
        int is_target = request_takes(r, bytes[at]);
        if (r->stage != DECIDED) continue;
        pages[slot].is_refused = !is_target || r->len == 0 || r->target[0] != '/';
        if (pages[slot].is_refused) break;
        while (name_len < r->len && r->target[name_len] != '?') name_len++;
        page_begin(&pages[slot].page, &served, r->target, name_len);
        pages[slot].page.report = report;
    }
}

// If all that was fixed is acknowledged, one call takes its record. Then the page is fixed up to the next one.
void page_is_asked(connection *c) {
    size_t slot = (size_t)(c - devices->node.slots);
    page *p = &pages[slot].page;
    if (pages[slot].request.stage != DECIDED) return;
    c->has_last = pages[slot].is_refused;
    if (c->has_last) return;
    counted.ticks = (unsigned)devices->node.host.ticks;
    if (c->acked == p->len && page_waits(p)) page_goes_on(p);
    while (!p->is_whole && !page_waits(p)) page_goes_on(p);
    WANT(p->is_known, "the harness does not know a page");
    c->text_len = p->len, c->has_last = p->is_whole;
}

// ---- a session

text pages_image(void) { return image; }

void pages_choose(void) {
    calls_of has = {.others = chance(50), .many = chance(60), .values = chance(80)};
    make_site(&served, &has);
    image = (text){served.image, served.len};
}

// Opens with images of which some bytes are others.
void pages_open_badly(device *d, const byte *own, const byte *mac, const byte *mask, const byte *router) {
    static byte damaged[1 << 20];
    for (unsigned k = below(5); k; k--) {
        memcpy(damaged, served.image, served.len);
        image = (text){damaged, damage_image(damaged, served.len)};
        if (chance(10)) heap_refuses = between(1, DEVICE_BLOCKS + 1);
        call_open(d, own, mac, mask, router);
        if (d->on.is_open) call_close(d);
    }
    image = (text){served.image, served.len};
}

void pages_begin(const byte *own) {
    memset(&counted, 0, sizeof counted);
    memcpy(counted.own, own, 4);
    values_begin();
    requests_begin(&served);
    clients_begin(&served, own, 1);
}

// ---- what the clients receive

// What a call sent is counted, though it was lost to an ARP request.
int pages_see(int is_lost) {
    const node *n = &devices->node;
    segment s;
    if (n->datagram_len == 0) return 0;
    by_arp += (unsigned)is_lost;
    model_sends(&counted, n->datagram, n->datagram_len);
    requests_see(n->arrived, n->arrived_len, n->datagram, n->datagram_len);
    if (!read_segment(n->datagram, n->datagram_len, &s) || s.from != WEB_PORT) return 0;
    counts.datagrams += !is_lost;
    heard_back(n->datagram, n->datagram_len, is_lost);
    return 1;
}

void devices_hear(const byte *bytes, size_t len) { receive_noise(bytes, len); }

void devices_hear_datagram(const byte *datagram, size_t len) { receive_datagram(datagram, len); }

// ---- what is read

static void read_counters(device *d) {
    const node *n = &d->node;
    unsigned number = below(UIP_COUNTERS + 1), read = numbers_of(&d->on, number);
    unsigned wanted = number == 0 ? (unsigned)n->host.ticks : counter_of(n, number);
    if (d == devices || number == 0 || number >= UIP_RETRANSMISSIONS)
        WANT(read == wanted, "counter %u is %u, and %u was foretold", number, read, wanted);
}

// No page of the second device is requested.
static void read_words(device *d) {
    byte name[66];
    size_t len = some_name(&served, name);
    unsigned hits = call_hits(&d->on, name, len), wanted_hits = d == devices ? hits_foretold(name, len) : 0;
    WANT(hits == wanted_hits, "a file was requested %u times, and %u was foretold", hits, wanted_hits);
    query kept = call_query(&d->on, name, len, between(UIP_MAX_QUERY, 300)), wanted = d == devices ? query_foretold(name, len) : (query){0};
    WANT(!memcmp(&kept, &wanted, sizeof kept), "a query of %zu bytes of hit %zu, and one of %zu bytes of hit %zu was foretold", kept.len,
         kept.hit, wanted.len, wanted.hit);
    counts.queries += kept.hit > 0, counts.hits++;
}

static void read_table(device *d) {
    unsigned open = 0;
    for (unsigned slot = 0; slot < UIP_SLOTS; slot++) {
        uip_row row = call_row(&d->on, slot), wanted = node_row(&d->node, slot);
        WANT(!memcmp(&row, &wanted, sizeof row), "the row of slot %u has state %u, tries %u and count %u, and %u, %u and %u was foretold",
             slot, row.state, row.tries, row.count, wanted.state, wanted.tries, wanted.count);
        if (d == devices && row.state != UIP_CLOSED && d->node.slots[slot].own_port == WEB_PORT) row_is_foretold(slot, &row);
        open += row.state != UIP_CLOSED;
    }
    for (const connection *c = d->node.slots; c < d->node.slots + UIP_SLOTS; c++)
        for (const connection *other = d->node.slots; other < c; other++)
            twins += c->state && other->state && c->port == other->port && !memcmp(c->peer, other->peer, 4);
    WANT(call_idle(&d->on) == (open == 0), "a device with %u connections is %sidle", open, open ? "" : "not ");
    read_rows += open, full += open == UIP_SLOTS;
}

static void read_some(void) {
    device *d = devices + chance(10);
    if (chance(40)) read_words(d);
    else if (chance(50)) read_counters(d);
    else read_table(d);
}

int pages_peer(byte *address, unsigned *port) { return client_peer(address, port); }

// ---- steps

// The second device has values of its own.
static void set_value(void) {
    unsigned number = below(UIP_VALUES), other = chance(10);
    value given = random_value();
    call_value(&devices[other].on, number, given.bytes, given.len);
    if (!other) values_given(number, &given);
    counts.given++;
}

void pages_act(void) {
    if (chance(4)) set_value();
    if (chance(2)) read_some();
    clients_act();
}

void pages_tick(void) {
    clients_tick();
    if (chance(5)) read_some();
}

// ---- a whole tick by the inline call, with reads and values in its sink

static unsigned next_slot;

// The frame that is next, if there is one: those of the slots before it send none.
static void next_frame(sent_frame *sent) {
    sent->len = 0;
    while (sent->len == 0 && next_slot < UIP_SLOTS) {
        sent->len = node_ticks(&devices->node, next_slot++, sent->bytes);
        pass_on(devices, sent, 0);
    }
}

static void take_frame(void *to, const byte *frame, size_t len) {
    sent_frame wanted;
    byte bytes[UIP_MAX_RECEIVED];
    next_frame(&wanted);
    int is_same = to == devices && len && len == wanted.len && !memcmp(frame, wanted.bytes, len);
    WANT(is_same, "a tick sent another frame, before slot %u", next_slot);
    if (chance(20)) call_read(devices, below(UIP_SLOTS), sizeof bytes, bytes);
    if (chance(5)) set_value();
    if (chance(5)) read_some();
    if (chance(2)) listen_somewhere(devices);
}

int pages_whole_tick(void) {
    static area frames;
    sent_frame rest;
    size_t room = chance(50) ? UIP_MAX_FRAME : between(UIP_MAX_FRAME, 4000), heap_before = heap_calls;
    if (!chance(20)) return 0;
    if (!frames.len) frames = area_new(4096, 0);
    next_slot = 0;
    unsigned status = uip_tick_frames(&devices->on.handle, take_room(&frames, room), room, take_frame, devices);
    next_frame(&rest);
    WANT(status == UIP_OK && rest.len == 0, "a tick returned %u, or did not send a frame", status);
    WANT(heap_calls == heap_before, "a tick called the heap");
    counts.calls += UIP_SLOTS, whole_ticks++;
    return 1;
}

// ----

void pages_refuse(device *d) {
    if (chance(30)) refused_counter(&d->on);
    else refused_words(&d->on);
}

void pages_show(void) {
    printf("%lu bad images; %lu pages closed, %lu of them compared whole; %lu values set, %lu texts of calls in pages, %lu segments sent "
           "again at a value that was another by then\n", counts.bad_images, counts.pages, counts.whole, counts.given, counts.shown,
           counts.changed);
    printf("%lu hit counts, %lu queries and %lu rows of connections read, %lu times of ten, %lu rows of the peer and port of another row; "
           "%lu datagrams lost to ARP requests; %lu texts of rows or counters; %lu whole ticks\n", counts.hits, counts.queries, read_rows,
           full, twins, by_arp, reports, whole_ticks);
}
