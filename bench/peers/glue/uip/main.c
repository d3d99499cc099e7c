// uIP as a firmware: the TCP/IP code of uIP 1.0, a web server in the way of uIP's httpd, and a SLIP line in the way of its slipdev, on the
// board of board.h. As there, nothing that was sent is kept: for a retransmission the text is made again, from what the device knows then.
// As there, the status, the type and each piece of a page have segments of their own. With JOINED a segment has as many pieces as fit.
#include "board.h"
#include "pages.h"
#include "uip.h"
#include "uipopt.h"

enum { STATUS, TYPE, TEXT, HITS, TICKS, COUNTERS, ROWS, DONE };    // the pieces of a reply
enum { COUNTS = 20, NUMBER_LEN = 10 };

struct place {                                             // where the next text of a reply begins
    u8_t piece, row;
    signed char counted;                                   // the file whose hits are asked for
    const u8_t *text;
    u32_t left;                                            // bytes of the text
    u32_t at;                                              // the place in the file after this piece
};

enum { METHOD, TARGET, REPLY, REFUSED };
struct reply {
    u8_t stage, polls, heard, name_len;
    signed char file;
    char name[64];
    const char *type;
    struct place now;
    u16_t sent;                                            // bytes of the last segment
#ifdef JOINED
    struct place next;                                     // the place after them
#endif
};

static struct uip_stack stack;
static struct reply replies[UIP_CONNS];
static u8_t packet[UIP_BUFSIZE + 2], frame[MTU + 1];
static u32_t hits[FILES], ticks;

// ---- pages

static const char *type_of(const page_file *file) {
#define TYPE_LINE(type) "Content-type: " type "\r\n\r\n"
    static const struct { char end[7], line[42]; } types[] = {
        {".html", TYPE_LINE("text/html")}, {".shtml", TYPE_LINE("text/html")}, {".txt", TYPE_LINE("text/plain")},
        {".css", TYPE_LINE("text/css")}, {".js", TYPE_LINE("text/javascript")}, {".png", TYPE_LINE("image/png")},
        {".gif", TYPE_LINE("image/gif")}, {".jpg", TYPE_LINE("image/jpeg")}};
    for (unsigned k = 0; k < sizeof types / sizeof *types; k++)
        if (ends_with(file, types[k].end)) return types[k].line;
    return TYPE_LINE("application/octet-stream");
}

static void set_text(struct place *place, u8_t piece, const void *text, u32_t len) {
    place->piece = piece;
    place->text = text;
    place->left = len;
}

// The word at *at, before `end`; *at is then after it.
static const char *word(const u8_t **at, const u8_t *end, size_t *len) {
    while (*at < end && **at == ' ') ++*at;
    const u8_t *begin = *at;
    while (*at < end && **at != ' ') ++*at;
    *len = (size_t)(*at - begin);
    return (const char *)begin;
}

// A line of a script, after its %!. Returns 0 if nothing comes in its place.
static int script_line(struct place *place, const u8_t *at, const u8_t *end) {
    static const char names[][16] = {"file-stats", "ticks", "net-stats", "tcp-connections"};    // in the order of HITS and those after it
    page_file other;
    size_t len, rest;
    int is_include = at < end && *at == ':';
    at += is_include;
    const char *name = word(&at, end, &len);
    if (is_include) {
        if (find_file(name, len, &other) < 0 || other.len == 0) return 0;
        set_text(place, TEXT, other.data, other.len);
        return 1;
    }
    for (u8_t k = 0; k < 4; k++) {
        if (strlen(names[k]) != len || memcmp(names[k], name, len)) continue;
        name = word(&at, end, &rest);
        place->piece = HITS + k;
        place->row = 0;
        place->counted = place->piece == HITS ? (signed char)find_file(name, rest, &other) : -1;
        return 1;
    }
    return 0;
}

// The next piece of a script.
static void next_of_script(struct place *place, const page_file *file) {
    const u8_t *end = file->data + file->len;
    while (place->at < file->len) {
        const u8_t *at = file->data + place->at, *stop = at;
        if (end - at > 1 && at[0] == '%' && at[1] == '!') {
            while (stop < end && *stop != '\n') stop++;
            place->at = (u32_t)(stop - file->data) + (stop < end);
            if (script_line(place, at + 2, stop)) return;
        } else {
            while (stop < end && !(end - stop > 1 && stop[0] == '%' && stop[1] == '!')) stop++;
            place->at = (u32_t)(stop - file->data);
            set_text(place, TEXT, at, (u32_t)(stop - at));
            return;
        }
    }
    place->piece = DONE;
}

static void next_piece(const struct reply *reply, struct place *place) {
    page_file file;
    if (place->piece == STATUS) {
        set_text(place, TYPE, reply->type, strlen(reply->type));
    } else if (!file_at(reply->file, &file) || place->at >= file.len) {
        place->piece = DONE;
    } else if (ends_with(&file, ".shtml")) {
        next_of_script(place, &file);
    } else {
        place->at = file.len;
        set_text(place, TEXT, file.data, file.len);
    }
}

// ---- segments

static char *put_counters(char *to) {
    const struct uip_stats *s = &stack.stats;
    const uip_stats_t *const all[COUNTS] = {
        &s->ip.recv, &s->ip.sent, &s->ip.drop, &s->ip.vhlerr, &s->ip.fragerr, &s->ip.chkerr, &s->ip.protoerr, &s->icmp.recv, &s->icmp.sent,
        &s->icmp.drop, &s->icmp.typeerr, &s->tcp.recv, &s->tcp.sent, &s->tcp.drop, &s->tcp.chkerr, &s->tcp.ackerr, &s->tcp.rst,
        &s->tcp.rexmit, &s->tcp.syndrop, &s->tcp.synrst};
    for (int k = 0; k < COUNTS; k++) {
        to = put_number(to, (u32_t)*all[k], NUMBER_LEN);
        *to++ = '\n';
    }
    return to;
}

static int state_of(int slot) { return stack.uip_conns[slot].tcpstateflags & UIP_TS_MASK; }

// The row of the next connection that is not closed, from place->row on.
static char *put_next_row(char *to, struct place *place) {
    static const char states[][12] = {
        "CLOSED", "SYN-RCVD", "SYN-SENT", "ESTABLISHED", "FIN-WAIT-1", "FIN-WAIT-2", "CLOSING", "TIME-WAIT", "LAST-ACK"};
    while (place->row < UIP_CONNS && state_of(place->row) == UIP_CLOSED) place->row++;
    if (place->row == UIP_CONNS) return to;
    const struct uip_conn *c = &stack.uip_conns[place->row];
    page_row row = {place->row, ntohs(c->rport), c->nrtx, c->timer, (const u8_t *)c->ripaddr, states[state_of(place->row)], c->len};
    return put_row(to, &row);
}

// Writes a piece, or as much of a text as there is room for. Returns its length.
static u16_t write_piece(struct place *place, char *to, u16_t room) {
    char *end = to;
    u16_t len;
    switch (place->piece) {
    case HITS: end = put_number(to, place->counted < 0 ? 0 : hits[place->counted], NUMBER_LEN); break;
    case TICKS: end = put_number(to, ticks, NUMBER_LEN); break;
    case COUNTERS: end = put_counters(to); break;
    case ROWS: end = put_next_row(to, place); break;
    default:
        len = place->left < room ? (u16_t)place->left : room;
        memcpy(to, place->text, len);
        end += len;
    }
    return (u16_t)(end - to);
}

// Goes past these bytes, which write_piece has written.
static void pass(const struct reply *reply, struct place *place, u16_t len) {
    if (place->piece == ROWS && len) {
        place->row++;
    } else if (place->piece <= TEXT && len < place->left) {
        place->text += len;
        place->left -= len;
    } else {
        next_piece(reply, place);
    }
}

#ifdef JOINED

static u16_t write_segment(struct reply *reply, char *to, u16_t room) {
    static const u8_t most[] = {0, 0, 0, NUMBER_LEN, NUMBER_LEN, COUNTS * (NUMBER_LEN + 1), ROW_MOST};
    u16_t at = 0;
    for (reply->next = reply->now; reply->next.piece != DONE && at < room;) {
        if (at && room - at < most[reply->next.piece]) break;
        u16_t len = write_piece(&reply->next, to + at, (u16_t)(room - at));
        pass(reply, &reply->next, len);
        at += len;
    }
    return at;
}

static void go_on(struct reply *reply) { reply->now = reply->next; }

#else

static u16_t write_segment(struct reply *reply, char *to, u16_t room) {
    u16_t len = 0;
    while (reply->now.piece != DONE && !(len = write_piece(&reply->now, to, room))) pass(reply, &reply->now, 0);
    return len;
}

static void go_on(struct reply *reply) { pass(reply, &reply->now, reply->sent); }

#endif

// ---- requests

static void begin_reply(struct reply *reply) {
    static const char ok[] = "HTTP/1.0 200 OK\r\nServer: uIP/1.0\r\nConnection: close\r\n";
    static const char none[] = "HTTP/1.0 404 Not found\r\nServer: uIP/1.0\r\nConnection: close\r\n";
    page_file file;
    if (reply->name_len == 1) reply->name_len = (u8_t)(put_text(reply->name, "/index.html") - reply->name);
    reply->stage = REPLY;
    reply->file = (signed char)find_file(reply->name, reply->name_len, &file);
    if (reply->file >= 0) {
        hits[reply->file]++;
        set_text(&reply->now, STATUS, ok, sizeof ok - 1);
    } else {
        reply->file = (signed char)find_file("/404.html", 9, &file);
        set_text(&reply->now, STATUS, none, sizeof none - 1);
    }
    reply->type = reply->file < 0 ? TYPE_LINE("text/html") : type_of(&file);
}

static void take_request(struct reply *reply, const char *text, u16_t len) {
    static const char method[] = "GET ";
    for (; len; len--, text++) {
        if (reply->stage == METHOD) {
            if (*text != method[reply->heard++]) reply->stage = REFUSED;
            else if (reply->heard == 4) reply->stage = TARGET;
        } else if (reply->stage == TARGET) {
            if (*text == ' ' || *text == '\r' || *text == '\n') {
                if (reply->name_len && reply->name[0] == '/') begin_reply(reply);
                else reply->stage = REFUSED;
            } else if (reply->name_len == sizeof reply->name) {
                reply->stage = REFUSED;
            } else {
                reply->name[reply->name_len++] = *text;
            }
        }
    }
}

// uIP calls this for each event of a connection.
#ifdef WHOLE    // its neighbours of IPv6
struct ndpc_state;
void ndpc_call(struct uip_stack *u) { (void)u; }
void ndpc_exit(struct ndpc_state *state) { (void)state; }
#endif

void httpd_appcall(struct uip_stack *u) {
    struct reply *reply = &replies[u->uip_conn - u->uip_conns];
    if (u->uip_flags & (UIP_CONNECTED | UIP_ABORT | UIP_TIMEDOUT | UIP_CLOSE)) memset(reply, 0, sizeof *reply);
    if (u->uip_flags & (UIP_ABORT | UIP_TIMEDOUT | UIP_CLOSE)) return;
    if (!(u->uip_flags & UIP_POLL)) reply->polls = 0;
    else if (++reply->polls == 20) {
        u->uip_flags = UIP_ABORT;
        return;
    }
    if (u->uip_flags & UIP_NEWDATA) take_request(reply, u->uip_appdata, u->uip_len);
    u16_t room = u->uip_conn->mss;
    if (u->uip_flags & UIP_REXMIT) {
        room = u->uip_conn->len;
    } else {
        if (u->uip_flags & UIP_ACKDATA && reply->sent) {
            go_on(reply);
            reply->sent = 0;
        }
        if (u->uip_conn->len && !(u->uip_flags & UIP_ACKDATA)) return;
    }
    if (reply->stage == REPLY) reply->sent = write_segment(reply, u->uip_sappdata, room);
    u->uip_slen = reply->sent;
    if (reply->stage == REFUSED || (reply->stage == REPLY && !reply->sent)) u->uip_flags = UIP_CLOSE;
}

// ---- the line

static void send_packet(void) {
    const u8_t *at = stack.network_layer;
    port_put(0xc0);
    for (u16_t left = stack.uip_len; left; left--, at++) {
        if (*at == 0xc0) {
            port_put(0xdb);
            port_put(0xdc);
        } else if (*at == 0xdb) {
            port_put(0xdb);
            port_put(0xdd);
        } else {
            port_put(*at);
        }
    }
    port_put(0xc0);
}

static void take(const u8_t *at, size_t count) {
    static u16_t kept_len;
    static u8_t kept_escaped;
    u16_t len = kept_len;
    u8_t is_escaped = kept_escaped;
    for (; count; count--) {
        u8_t byte = *at++;
        if (byte == 0xc0) {
            if (len && len <= MTU) {
                memcpy(stack.network_layer, frame, len);
                stack.uip_len = len;
                uip_input(&stack);
                if (stack.uip_len) send_packet();
            }
            len = is_escaped = 0;
        } else if (byte == 0xdb) {
            is_escaped = 1;
        } else {
            if (is_escaped) byte = byte == 0xdc ? 0xc0 : byte == 0xdd ? 0xdb : byte;
            is_escaped = 0;
            if (len < sizeof frame) frame[len++] = byte;
        }
    }
    kept_len = len;
    kept_escaped = is_escaped;
}

static void tick(void) {
    ticks++;
    for (int slot = 0; slot < UIP_CONNS; slot++) {
        stack.uip_len = 0;
        uip_periodic(&stack, slot);
        if (stack.uip_len) send_packet();
    }
}

static void uip_start(void) {
    static const u8_t own[4] = {10, 0, 0, 1};
    uip_init(&stack, 0);
    memcpy(stack.hostaddr, own, 4);
    stack.uip_buf = stack.data_link_layer = packet;
    stack.network_layer = packet + UIP_LLH_LEN;
    packet[12] = 8;                                        // the type of an Ethernet frame with IPv4, which this uIP reads
    uip_listen(&stack, htons(80));
}

int main(void) {
    board_start();
    uip_start();
    for (unsigned t = 0;; board_sleep(t)) {
        port_bytes came = port_waiting();
        take(came.at, came.len);
        port_taken(came.len);
        if (tick_is_due(&t)) tick();
    }
}
