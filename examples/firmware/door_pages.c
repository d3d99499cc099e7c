/*
 * The pages of a door opener (the folder door_site), on any link and without tasks. A button unlocks the door for a number of seconds.
 * A form sets that number, which holds at once, and after a restart. In the place of pages.c.
 *
 * TOKENS. The button and the form have a token each. The first request that brings it uses it up, whatever comes of it.
 *
 *   - That of the button is valid for 20 to 40 s, as a browser that had no network may send a click late. A script of the page asks for the
 *     next one, together with the state. Without a script the button works for at least 20 s after its page was loaded.
 *   - That of the form is valid for 10 to 20 minutes. That suffices for the form, so it needs no script.
 *   - A change of the number ends both: the pages show the old one, and the button would unlock the door for another time.
 *   - A change of the door ends none. In each state the button does the same, as the time begins anew; and the page shows that time.
 *   - They are random, since a page of another site must not guess them.
 *
 * TAGS. A page draws a tag for each click. An outcome is shown with the tag of its request, as two browsers see the same values. If the
 * request that was accepted comes again, its outcome stays "accepted", and nothing else happens: ../outcome.h does that.
 *
 * FLASH. The pass that accepts a number stores it if it differs. Each erasure takes a token: only who has loaded the page causes one.
 * TIME is that of milliseconds(), as a device that sleeps leaves out ticks. A new number does not change a time that has begun.
 *
 * No status is checked here: each call returns UIP_OK, since the device is open and the arguments are in range.
 *
 * SPDX-License-Identifier: MIT OR Apache-2.0
 * Copyright 2026 The Lowunbisa authors
 */
#include "pages.h"
#include "drivers.h"
#include "../../support/outcome.h"
#include "../../support/token.h"

enum { OPEN_TOKEN = 1, SET_TOKEN = 2, OPEN_OUTCOME = 3, SET_OUTCOME = 4, DOOR = 5, SECONDS = 6 };    /* values */
enum { MOST_SECONDS = 60 };
#ifndef OPEN_MS
#define OPEN_MS 20000                          /* a token of the button is valid for this time to twice as long, in milliseconds */
#define SET_MS 600000                          /* the same for the form */
#endif

struct form {
    const char *file;
    size_t file_len, token_value, outcome_value;
    struct token_pair token;
    struct outcomes outcomes;
    unsigned hits_seen;
};

static struct form open_form = {UIP_TEXT("/open.shtml"), OPEN_TOKEN, OPEN_OUTCOME, {.period = OPEN_MS}, NO_OUTCOMES, 0};
static struct form set_form = {UIP_TEXT("/set.shtml"), SET_TOKEN, SET_OUTCOME, {.period = SET_MS}, NO_OUTCOMES, 0};
static unsigned segments_seen, seconds = 5, shown;    /* `seconds` is the number, and `shown` the one that the pages show; 0: none */
static unsigned unlocked_at, unlocked_ms;             /* when the time began, and its length: 0 while the door is locked */

/* This and `set` return why they refuse the request, or null. */
static const char *unlock(void) {
    unlocked_at = milliseconds();
    unlocked_ms = seconds * 1000;
    door_unlock(1);
    return NULL;
}

static int is_in_range(unsigned number) { return number >= 1 && number <= MOST_SECONDS; }

static const char *set(const unsigned char *query, size_t len) {
    unsigned number;
    if (!number_in(query, len, "s", &number) || !is_in_range(number)) return "range";
    if (number != seconds && !store_seconds(number)) return "flash";
    seconds = number;
    return NULL;
}

/* One value, so of one moment. */
static void show_outcomes(const struct form *form) {
    char text[UIP_MAX_VALUE];
    uip_set_value(&device, form->outcome_value, text, outcome_text(&form->outcomes, text));
}

/* The query d=TAG&n=TOKEN, with &s=SECONDS of /set.shtml. If the request brought none, or none that is kept, it counts as empty. */
static void look_at(struct form *form) {
    unsigned char text[UIP_MAX_QUERY];
    unsigned hits = uip_hits(&device, form->file, form->file_len).number;
    if (hits == form->hits_seen) return;
    uip_query_text query = uip_query(&device, form->file, form->file_len, text, sizeof text);
    size_t len = query.hit == hits ? query.len : 0;
    const char *refused = "old";
    form->hits_seen = hits;
    if (token_take(&form->token, milliseconds(), text, len, "n")) refused = form == &set_form ? set(text, len) : unlock();
    outcome_add(&form->outcomes, text, len, refused);
    show_outcomes(form);
}

static void show_token(struct form *form) {
    if (!token_is_due(&form->token, milliseconds())) return;
    token_draw(&form->token, milliseconds(), random_bits(), random_bits());
    uip_set_value(&device, form->token_value, form->token.text, TOKEN_LEN);
}

/* Locks the door at its time, and shows its state: unlocked 5, for up to five more seconds. */
static void show_door(void) {
    char text[UIP_MAX_VALUE] = "unlocked ";
    unsigned passed = milliseconds() - unlocked_at;
    if (unlocked_ms > 0 && passed >= unlocked_ms) {
        unlocked_ms = 0;
        door_unlock(0);
    }
    if (unlocked_ms == 0) uip_set_value(&device, DOOR, UIP_TEXT("locked"));
    else uip_set_value(&device, DOOR, text, 9 + decimal(text + 9, (unlocked_ms - passed + 999) / 1000));
}

static void show(void) {
    char text[UIP_MAX_VALUE];
    if (seconds != shown) {
        shown = seconds;
        token_end(&open_form.token);
        token_end(&set_form.token);
        uip_set_value(&device, SECONDS, text, decimal(text, seconds));
    }
    show_token(&open_form);
    show_token(&set_form);
    show_door();
}

struct addresses pages_addresses(struct addresses usual) { return usual; }

int pages_may_stop_timer(void) { return unlocked_ms == 0; }    /* the door is locked at its time */

void pages_start(void) {
    unsigned stored;
    if (load_seconds(&stored) && is_in_range(stored)) seconds = stored;    /* else the usual number stays */
    segments_seen = open_form.hits_seen = set_form.hits_seen = shown = 0;
    show_outcomes(&open_form);
    show_outcomes(&set_form);
    show();
}

void pages_work(void) {
    unsigned segments = uip_counter(&device, UIP_TCP_IN).number;
    if (segments != segments_seen) {               /* else no request has come */
        segments_seen = segments;
        look_at(&open_form);
        look_at(&set_form);
    }
    show();
}
