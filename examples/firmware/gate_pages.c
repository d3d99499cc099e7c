/*
 * The pages of the gate (the folder gate_site), on any link. They show its state, and their form sends a command. In the place of
 * pages.c: it has the functions of pages.h, which the task `network` calls.
 *
 * A token belongs to the state that the pages show. In each page its directive is above that of the state. The node reads them in
 * this order: if the state changes in between, the page has an old token. So the right token proves which state the page showed.
 *
 * The first request that brings the right token uses it up, whatever comes of it. So a request that is sent again does nothing, also if
 * the first was answered by "busy". A browser that had no network may send a request after hours: so a token is valid for less than a
 * minute, and each page asks for the present one. It is random, since a page of another site must not guess it. (If that does not
 * matter, take a number of the start and a count, as pages.c does.)
 *
 * Each request has a tag that its page has drawn, and the outcome is shown with this tag. For a value belongs to the device: if two
 * browsers send commands at one time, each reply shows what came of both.
 *
 * No status is checked here: each call returns UIP_OK, since the device is open and the arguments are in range.
 *
 * SPDX-License-Identifier: MIT OR Apache-2.0
 * Copyright 2026 The Lowunbisa authors
 */
#include <string.h>
#include "pages.h"
#include "drivers.h"
#include "gate.h"
#include "../../support/token.h"

enum { TOKEN = 1, OUTCOME = 2, GATE = 3 };     /* values, in the order in which pages show them */
enum { TAG_LEN = 8 };                          /* a tag of 1 to 8 characters */
#ifndef TOKEN_MS
#define TOKEN_MS 20000                         /* a token is valid for this time to twice as long, in milliseconds */
#endif

struct outcome { char tag[TAG_LEN]; size_t tag_len; const char *word; };    /* the word has at most 8 characters; of `last_refused` 4 */

static struct report now;                      /* the last one: the pages show its state. Its `changes` are 0 before the first */
static unsigned sent;                          /* the number of the last command; 0 before the first */
static struct token_pair token = {.period = TOKEN_MS};
static struct outcome last_sent = {"-", 1, "none"}, last_refused = {"-", 1, "none"};
static unsigned segments_seen, hits_seen;

/* Before the first report there is no token, so no command is taken. The time is not in ticks: a device that sleeps leaves them out. */
static void show_token(void) {
    if (now.changes == 0 || !token_is_due(&token, milliseconds())) return;
    token_draw(&token, milliseconds(), random_bits(), random_bits());
    uip_set_value(&device, TOKEN, token.text, TOKEN_LEN);
}

static size_t add(char *to, const char *text, size_t len) {
    memcpy(to, text, len);
    to[len] = ' ';
    return len + 1;
}

/* One value, so of one moment: 3f9a0c71 accepted 00c2d1e4 busy. It has at most 31 bytes. */
static void show_outcomes(void) {
    char text[UIP_MAX_VALUE];
    size_t len = add(text, last_sent.tag, last_sent.tag_len);
    len += add(text + len, last_sent.word, strlen(last_sent.word));
    len += add(text + len, last_refused.tag, last_refused.tag_len);
    len += add(text + len, last_refused.word, strlen(last_refused.word));
    uip_set_value(&device, OUTCOME, text, len - 1);
}

static void show_gate(void) {
    static const char *const words[] = {"closed", "opening", "open", "closing", "stopped", "fault"};
    char text[UIP_MAX_VALUE];
    size_t len = add(text, words[now.state], strlen(words[now.state]));
    len += tenths_text(text + len, now.position);
    uip_set_value(&device, GATE, text, len);
}

/* Takes the newest report. Another position is no other state, and leaves the token. */
static void look_at_report(void) {
    static const char *const words[] = {"accepted", "changed", "cannot"};
    unsigned changes = now.changes, answered = now.answered;
    if (!queue_get(reports, &now, 0)) return;
    if (now.changes != changes) token_end(&token);
    show_gate();
    if (now.answered == answered) return;
    last_sent.word = words[now.answer];
    show_outcomes();
}

static void note(struct outcome *outcome, const unsigned char *query, size_t len, const char *word) {
    size_t size;
    const unsigned char *tag = field_in(query, len, "d", &size);
    int has_tag = tag && size >= 1 && size <= TAG_LEN;
    outcome->tag_len = has_tag ? size : 1;
    memcpy(outcome->tag, has_tag ? (const char *)tag : "-", outcome->tag_len);
    outcome->word = word;
    show_outcomes();
}

static int order_in(const unsigned char *query, size_t len, unsigned *order) {
    if (token_in(query, len, "c", UIP_TEXT("open"))) *order = TO_OPEN;
    else if (token_in(query, len, "c", UIP_TEXT("stop"))) *order = TO_STOP;
    else if (token_in(query, len, "c", UIP_TEXT("close"))) *order = TO_CLOSE;
    else return 0;
    return 1;
}

/* Sends the command of a query, or returns why not. The queue counts as full until the answer to the command before has come: if two
 * were on their way, the second answer could overwrite the first.
 */
static const char *send_command(const unsigned char *query, size_t len) {
    struct command command;
    if (!token_take(&token, milliseconds(), query, len, "n")) return "old";
    if (!order_in(query, len, &command.order)) return "bad";
    command.number = sent + 1;
    command.shown = now.changes;
    if (sent != now.answered || !queue_put(commands, &command)) return "busy";
    sent++;
    return NULL;
}

/* The form of /command.shtml: n=TOKEN&d=TAG&c=open. If the request brought no query, or none that is kept, it counts as empty. */
static void look_at_command(void) {
    unsigned char text[UIP_MAX_QUERY];
    unsigned hits = uip_hits(&device, UIP_TEXT("/command.shtml")).number;
    if (hits == hits_seen) return;
    uip_query_text query = uip_query(&device, UIP_TEXT("/command.shtml"), text, sizeof text);
    size_t len = query.hit == hits ? query.len : 0;
    const char *refused = send_command(text, len);
    hits_seen = hits;
    if (refused) note(&last_refused, text, len, refused);
    else note(&last_sent, text, len, "sent");
}

int pages_may_stop_timer(void) { return 1; }

void pages_start(void) {
    segments_seen = hits_seen = 0;
    show_outcomes();
    if (now.changes == 0) return;
    show_gate();
    token_end(&token);
    show_token();
}

/* The report comes first: a command that was sent by an older page is then refused here. */
void pages_work(void) {
    unsigned segments = uip_counter(&device, UIP_TCP_IN).number;
    look_at_report();
    if (segments != segments_seen) {               /* else no request has come */
        segments_seen = segments;
        look_at_command();
    }
    show_token();
}
