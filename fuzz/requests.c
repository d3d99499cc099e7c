// What is known of each connection from the datagrams that the node hears and sends: which file its peer asked for, so how often each
// file was, and which states its row may have.
#include <string.h>
#include "pages.h"

enum { MOST_PEERS = 4096, HTTP = 80 };

// A peer since its last SYN-ACK. `next` is the number that the node expects, `sent` the one of the last SYN, text or FIN that it sent,
// `sent_len` how many numbers that takes, and `again` how often a tick sent it once more.
typedef struct {
    byte address[4];
    unsigned port, next, sent, sent_len, again;
    int has_sent, has_text, has_fin, has_received;    // `has_received`: text, in an earlier piece
    request request;
} peer;

static peer peers[MOST_PEERS];
static unsigned count;
static const site *asked;
static unsigned hits[MOST_FILES], hits_before[MOST_FILES];
static query kept;                 // the last query, and the file that it was for
static const file *kept_for;

void requests_begin(const site *s) {
    asked = s, count = 0, kept_for = 0;
    memset(hits, 0, sizeof hits), memset(hits_before, 0, sizeof hits_before);
}

void hits_settled(void) { memcpy(hits_before, hits, asked->count * sizeof *hits); }

static unsigned hits_in(const unsigned *of, const byte *name, size_t len) {
    const file *f = file_named(asked, name, len);
    return f ? of[f - asked->files] : 0;
}

unsigned hits_foretold(const byte *name, size_t len) { return hits_in(hits, name, len); }

unsigned least_hits(const byte *name, size_t len) { return hits_in(hits_before, name, len); }

static peer *peer_at(const byte *address, unsigned port) {
    for (unsigned k = count; k; k--) if (peers[k - 1].port == port && !memcmp(peers[k - 1].address, address, 4)) return &peers[k - 1];
    return 0;
}

query query_foretold(const byte *name, size_t len) {
    const file *f = file_named(asked, name, len);
    return f && f == kept_for ? kept : (query){0};
}

// The text after the `?` of a target is kept if the first piece of the connection decides the request.
static void keep_query(const peer *p, const file *f, size_t mark) {
    const request *r = &p->request;
    query new = {.hit = hits[f - asked->files], .len = r->len - mark - 1};
    if (p->has_received || mark >= r->len || new.len > UIP_MAX_QUERY) return;
    for (size_t k = 0; k < new.len; k++) if (!is_kept(new.bytes[k] = r->target[mark + 1 + k])) return;
    kept = new, kept_for = f;
}

// The name of the file that a whole target means is what is before a `?`, at `mark`.
const file *file_requested(const site *s, const request *r, size_t *mark) {
    size_t len = 0;
    while (len < r->len && r->target[len] != '?') len++;
    *mark = len;
    const byte *name = file_of_target(r->target, &len);
    return r->len && r->target[0] == '/' ? file_named(s, name, len) : 0;
}

int request_takes(request *r, byte b) {
    int ends = b == ' ' || (r->stage == TARGET && (b == '\r' || b == '\n'));
    if (r->stage == DECIDED) return 0;
    if (!ends) {
        if (r->len < LONGEST_TARGET) r->target[r->len++] = b;
        return 0;
    }
    int is_get = r->stage == WORD && r->len == 3 && !memcmp(r->target, "GET", 3), is_target = r->stage == TARGET;
    r->stage = is_get ? TARGET : DECIDED;
    if (!is_target) r->len = 0;
    return is_target;
}

static void hear_byte(peer *p, byte b) {
    size_t mark;
    if (!request_takes(&p->request, b)) return;
    const file *f = file_requested(asked, &p->request, &mark);
    if (f) hits[f - asked->files]++, keep_query(p, f, mark);
}

// The text of a datagram was taken where it begins with what is expected and the answer acknowledges it.
static void hear_text(peer *p, const segment *in, const segment *out) {
    unsigned behind = out->ack - in->seq - (unsigned)in->len;
    if (in->seq != p->next || behind > 1 || p->has_fin) return;
    for (size_t at = 0; at < in->len; at++) hear_byte(p, in->text[at]);
    p->has_received |= in->len > 0;
}

static peer *new_peer(const segment *out) {
    peer *p = peer_at(out->target, out->to);
    WANT(p || count < MOST_PEERS, "the harness has no room for a peer");
    if (!p) p = &peers[count++];
    memset(p, 0, sizeof *p);
    memcpy(p->address, out->target, 4);
    p->port = out->to, p->next = out->ack;
    return p;
}

static int is_from(const peer *p, const byte *heard, size_t len, segment *in) {
    size_t told = len < 20 ? 0 : (size_t)heard[2] << 8 | heard[3];
    return read_segment(heard, told < len ? told : len, in) && in->to == HTTP && in->from == p->port
        && !memcmp(in->source, p->address, 4);
}

void requests_see(const byte *heard, size_t heard_len, const byte *sent, size_t sent_len) {
    segment in, out;
    if (!read_segment(sent, sent_len, &out) || out.from != HTTP || out.flags & RST) return;
    peer *p = heard && out.flags & SYN ? new_peer(&out) : peer_at(out.target, out.to);
    WANT(p, "a segment went to a peer without a connection");
    if (heard && is_from(p, heard, heard_len, &in)) hear_text(p, &in, &out);
    p->next = out.ack;
    if (!out.len && !(out.flags & (SYN | FIN))) return;
    p->again = p->has_sent && p->sent == out.seq ? p->again + 1 : 0;
    p->has_sent = 1, p->sent = out.seq, p->sent_len = (unsigned)out.len + !!(out.flags & (SYN | FIN));
    p->has_text |= out.len > 0, p->has_fin |= (out.flags & FIN) != 0;
}

void numbers_are_known(held *c, int waits) {
    const peer *p = peer_at(c->peer, c->port);
    WANT(p, "a connection has a peer that was never answered");
    c->rcv = p->next, c->una = waits ? p->sent : p->sent + p->sent_len, c->out = waits ? p->sent_len : 0;
}

void takes_silently(const held *c, size_t len) {
    peer *p = peer_at(c->peer, c->port);
    if (p) p->next += (unsigned)len;
}

// A row by what was sent to its peer: text and FIN come behind SYN-RCVD, a FIN stands at the states that have sent one, and those that
// wait for nothing have nothing outstanding.
void row_is_foretold(unsigned slot, const uip_row *row) {
    if (row->state == UIP_CLOSED) return;
    const peer *p = peer_at(row->peer, row->port);
    WANT(p, "the row of slot %u has a peer that was never answered", slot);
    WANT(row->state <= UIP_LAST_ACK && row->waiting <= 1, "the row of slot %u tells %u and %u", slot, row->state, row->waiting);
    int is_early = row->state == UIP_SYN_RCVD, is_late = row->state >= UIP_FIN_WAIT_1;
    int rests = row->state == UIP_FIN_WAIT_2 || row->state == UIP_TIME_WAIT;
    WANT(!is_early || (!p->has_text && row->waiting), "the row of slot %u is in SYN-RCVD behind a text", slot);
    WANT(p->has_fin == is_late, "the row of slot %u has the state %u, and %s FIN was sent", slot, row->state, p->has_fin ? "a" : "no");
    WANT(!is_late || row->waiting == !rests, "the row of slot %u has the state %u and %u waits", slot, row->state, row->waiting);
    WANT(!row->waiting || row->tries == p->again, "the row of slot %u tells %u tries, and %u were seen", slot, row->tries, p->again);
    WANT(row->count <= 250, "the row of slot %u counts %u", slot, row->count);
}
