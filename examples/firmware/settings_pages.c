/*
 * Pages that change the address of the device, its mask and its router (the folder settings_site). In the place of pages.c, for ether.c.
 * The form of settings.shtml shows the present ones. The device checks what it sends, stores it, and restarts after the reply, which has
 * a link to the new address.
 *
 * The token of the form is random, since a page of another site must not guess it. It expires, since a browser that had no network may
 * send a request after hours. Ten minutes suffice for the form, so its page needs no script that asks for the present token.
 *
 * There is a way back from an address that nobody can reach: a button that is held at the start. The device then has its usual
 * addresses until the next start, and its page can store others.
 *
 * No status is checked here: each call returns UIP_OK, since the device is open and the arguments are in range.
 *
 * SPDX-License-Identifier: MIT OR Apache-2.0
 * Copyright 2026 The Lowunbisa authors
 */
#include <string.h>
#include "pages.h"
#include "drivers.h"
#include "../../support/token.h"

enum { TOKEN = 1, OWN = 2, BITS = 3, ROUTER = 4, OUTCOME = 5, LINK = 6 };    /* values, in the order in which pages show them */
enum { TAG_LEN = 8 };
#ifndef TOKEN_MS
#define TOKEN_MS 600000                        /* a token is valid for this time to twice as long, in milliseconds */
#endif

static struct addresses present;               /* those with which the device was opened */
static struct token_pair token = {.period = TOKEN_MS};
static unsigned segments_seen, hits_seen;
static int is_restarting;
static unsigned asked_at;                      /* the number of ticks when the restart was asked for */

static void show_token(void) {
    if (!token_is_due(&token, milliseconds())) return;
    token_draw(&token, milliseconds(), random_bits(), random_bits());
    uip_set_value(&device, TOKEN, token.text, TOKEN_LEN);
}

static void show_address(size_t number, const unsigned char address[4]) {
    char text[UIP_MAX_VALUE];
    uip_set_value(&device, number, text, address_text(text, address));
}

/* The length of a mask in bits: 24 for 255.255.255.0. */
static void show_bits(const unsigned char mask[4]) {
    char text[UIP_MAX_VALUE];
    unsigned k, bits = 0;
    for (k = 0; k < 32; k++) bits += mask[k / 8] >> k % 8 & 1u;
    uip_set_value(&device, BITS, text, decimal(text, bits));
}

/* The outcome of a request, after its tag, which is the start of its token: the form has no room for another one. */
static void show_outcome(const unsigned char *query, size_t len, const char *word) {
    char text[UIP_MAX_VALUE];
    size_t size = 0;
    const unsigned char *tag = field_in(query, len, "n", &size);
    if (size > TAG_LEN) size = TAG_LEN;
    if (size > 0) memcpy(text, tag, size);
    else text[size++] = '-';
    text[size++] = ' ';
    memcpy(text + size, word, strlen(word));
    uip_set_value(&device, OUTCOME, text, size + strlen(word));
}

/* An empty field, or 0.0.0.0, is no router. Any other one is another host of the same network. */
static int router_in(const unsigned char *query, size_t len, struct addresses *to) {
    static const unsigned char none[4] = {0, 0, 0, 0};
    size_t size;
    const unsigned char *field = field_in(query, len, "g", &size);
    memcpy(to->router, none, sizeof none);
    if (field && size == 0) return 1;
    if (!address_in(query, len, "g", to->router)) return 0;
    if (memcmp(to->router, none, sizeof none) == 0) return 1;
    return is_host(to->router, to->mask) && is_same_network(to->router, to->own, to->mask) && memcmp(to->router, to->own, 4) != 0;
}

/* Stores the addresses of a query, or returns why not. The first request that brings the right token uses it up, whatever comes of it. */
static const char *store(const unsigned char *query, size_t len, struct addresses *to) {
    unsigned bits;
    if (!token_take(&token, milliseconds(), query, len, "n")) return "old";
    if (!number_in(query, len, "p", &bits) || bits < 8 || bits > 30 || !mask_of(bits, to->mask)) return "mask";
    if (!address_in(query, len, "a", to->own) || !is_host(to->own, to->mask)) return "address";
    if (!router_in(query, len, to)) return "router";
    if (!store_settings(to)) return "flash";
    return NULL;
}

/* The form of /set.shtml: n=TOKEN&a=192.168.7.2&p=24&g=192.168.7.1, of at most 59 bytes. If the request brought no query, or none that is
 * kept, it counts as empty. While the restart is due, nothing more is changed, and the reply keeps its values.
 */
static void look_at_form(void) {
    unsigned char text[UIP_MAX_QUERY];
    unsigned hits = uip_hits(&device, UIP_TEXT("/set.shtml")).number;
    if (hits == hits_seen || is_restarting) return;
    uip_query_text query = uip_query(&device, UIP_TEXT("/set.shtml"), text, sizeof text);
    size_t len = query.hit == hits ? query.len : 0;
    struct addresses to;
    const char *refused = store(text, len, &to);
    hits_seen = hits;
    show_outcome(text, len, refused ? refused : "stored");
    show_address(LINK, refused ? present.own : to.own);
    if (refused) return;
    is_restarting = 1;
    asked_at = uip_ticks(&device).number;
}

/* So that the reply is delivered, the restart comes when it is, or after six ticks. */
static void restart_if_due(void) {
    if (!is_restarting) return;
    if (uip_ticks(&device).number - asked_at >= 6 || !uip_needs_ticks(&device)) stop(UIP_OK);
}

/* If nothing was stored, load_settings leaves the usual ones. */
struct addresses pages_addresses(struct addresses usual) {
    present = usual;
    if (!button_is_held()) load_settings(&present);
    return present;
}

int pages_may_stop_timer(void) { return 1; }

void pages_start(void) {
    segments_seen = hits_seen = 0;
    is_restarting = 0;
    token_end(&token);
    show_token();
    show_address(OWN, present.own);
    show_bits(present.mask);
    show_address(ROUTER, present.router);
    show_outcome(NULL, 0, "none");
    show_address(LINK, present.own);
}

void pages_work(void) {
    unsigned segments = uip_counter(&device, UIP_TCP_IN).number;
    if (segments != segments_seen) {           /* else no request has come */
        segments_seen = segments;
        look_at_form();
    }
    show_token();
    restart_if_due();
}
