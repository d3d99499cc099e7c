/*
 * What the device does with its pages (the folder site). Two links are the buttons of a lamp, values show the lamp, its
 * brightness and the temperature, a form sets the brightness, and a form with a token restarts the device.
 *
 * No status is checked here: each call returns UIP_OK, since the device is open and the arguments are in range.
 *
 * SPDX-License-Identifier: MIT OR Apache-2.0
 * Copyright 2026 The Lowunbisa authors
 */
#include "pages.h"
#include "drivers.h"
#include "../../support/token.h"

enum { TEMPERATURE = 3, LAMP = 4, BRIGHTNESS = 5, TOKEN = 6, RESTART = 8 };    /* values: `%! value-html 3` in a page shows the temperature */

static unsigned segments_seen;                     /* how many TCP segments had come at the last look */
static unsigned hits_on, hits_off;                 /* how often the two buttons had been pressed at the last look */
static int is_on;
static unsigned brightness = 100;                  /* of the lamp that is on, 0 to 100 */
static unsigned hits_set, hits_restart;            /* how often each form had been sent at the last look */
static struct token_pair token;                    /* its period is 0: it does not expire, and the time has no effect */
static int is_restarting;
static unsigned asked_at;                          /* the number of ticks when the restart was asked for */

static void switch_lamp(int on) {
    char text[UIP_MAX_VALUE];
    is_on = on;
    lamp(on ? brightness : 0);
    uip_set_value(&device, LAMP, on ? "on" : "off", on ? 2 : 3);
    uip_set_value(&device, BRIGHTNESS, text, decimal(text, brightness));
}

/* A token is the number of the start and a count, so that none is ever used twice. */
static void show_token(void) {
    static unsigned count;
    if (!token_is_due(&token, 0)) return;
    token_draw(&token, 0, start_number(), count++);
    uip_set_value(&device, TOKEN, token.text, TOKEN_LEN);
}

/* A link is a button: its file was requested if the count of its hits has risen. */
static void look_at_buttons(void) {
    unsigned on = uip_hits(&device, UIP_TEXT("/on.html")).number;
    unsigned off = uip_hits(&device, UIP_TEXT("/off.html")).number;
    if (on != hits_on) switch_lamp(1);
    if (off != hits_off) switch_lamp(0);
    hits_on = on;
    hits_off = off;
}

/* The form of /set.shtml: level=21&d=.. What is no number from 0 to 100 changes nothing. */
static void look_at_brightness(void) {
    unsigned char text[UIP_MAX_QUERY];
    unsigned number, hits = uip_hits(&device, UIP_TEXT("/set.shtml")).number;
    if (hits == hits_set) return;
    uip_query_text query = uip_query(&device, UIP_TEXT("/set.shtml"), text, sizeof text);
    hits_set = hits;
    if (query.hit != hits || !number_in(text, query.len, "level", &number) || number > 100) return;
    brightness = number;
    switch_lamp(is_on);
}

/* The form of /restart.shtml: n=TOKEN&d=.. A page that is loaded again has an old token, and does nothing; the reply shows which it is.
 * So that the reply is delivered, the restart comes when it is, or after six ticks.
 */
static void look_at_restart(void) {
    unsigned char text[UIP_MAX_QUERY];
    unsigned hits = uip_hits(&device, UIP_TEXT("/restart.shtml")).number;
    if (hits == hits_restart) return;
    uip_query_text query = uip_query(&device, UIP_TEXT("/restart.shtml"), text, sizeof text);
    hits_restart = hits;
    if (query.hit == hits && token_take(&token, 0, text, query.len, "n")) {
        is_restarting = 1;
        asked_at = uip_ticks(&device).number;
        uip_set_value(&device, RESTART, UIP_TEXT("The device starts again."));
    } else if (!is_restarting) {
        uip_set_value(&device, RESTART, UIP_TEXT("The page was old."));
    }
}

static void restart_if_due(void) {
    if (!is_restarting) return;
    if (uip_ticks(&device).number - asked_at >= 6 || !uip_needs_ticks(&device)) stop(UIP_OK);
}

static void look_at_temperature(void) {
    char text[UIP_MAX_VALUE];
    uip_set_value(&device, TEMPERATURE, text, tenths_text(text, temperature()));
}

struct addresses pages_addresses(struct addresses usual) { return usual; }

int pages_may_stop_timer(void) { return 1; }

void pages_start(void) {
    segments_seen = hits_on = hits_off = hits_set = hits_restart = 0;
    is_restarting = 0;
    switch_lamp(is_on);
    token_end(&token);
    show_token();
    look_at_temperature();
}

void pages_work(void) {
    unsigned segments = uip_counter(&device, UIP_TCP_IN).number;
    look_at_temperature();
    if (segments != segments_seen) {               /* else no request has come */
        segments_seen = segments;
        look_at_buttons();
        look_at_brightness();
        look_at_restart();
    }
    show_token();
    restart_if_due();
}
