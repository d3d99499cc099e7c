/*
 * Tokens. A token is a text that a page shows as a value. The device accepts it once, only while the state that the page showed is
 * unchanged, and not late. "Once" in docs/PAGES.md has the page and the reasons.
 *
 *     static struct token_pair token = {.period = 20000};    // valid for 20 to 40 s. All 0: no token yet, and none expires
 *
 *     // Before and after the requests of each pass. `changes` counts the changes of the state that the pages show
 *     static void show(void) {
 *         if (changes != shown) {
 *             shown = changes;
 *             token_end(&token);                             // the pages in browsers show the old state
 *             set_state_values();
 *         }
 *         if (token_is_due(&token, milliseconds())) {
 *             token_draw(&token, milliseconds(), random_bits(), random_bits());
 *             uip_set_value(&device, 6, token.text, TOKEN_LEN);
 *         }
 *     }
 *
 *     // In each pass, with `query` of `len` bytes from uip_query if a request has come: n=5ab01c7700e2d94f&..
 *     show();
 *     if (token_take(&token, milliseconds(), query, len, "n")) act();
 *     show();
 *
 * Without a random generator draw by token_draw(&token, milliseconds(), start, count++), where no earlier start of the device had the
 * number `start`. That helps against repetition, and not against a page of another site. If the device is opened again, call token_end,
 * and let `shown` differ from `changes`: the values are lost.
 *
 * SPDX-License-Identifier: MIT OR Apache-2.0
 * Copyright 2026 The Lowunbisa authors
 */
#ifndef TOKEN_H
#define TOKEN_H

#include "text.h"

enum { TOKEN_LEN = 16 };       /* bytes of a token: hexadecimal digits */

struct token_pair {
    unsigned period;           /* set by you, in milliseconds, below 2^31: after it the next token is due. 0: a token does not expire */
    char text[TOKEN_LEN];      /* the present token, for uip_set_value */
    char older[TOKEN_LEN];     /* the one before it: a page that was loaded just before the present one was drawn has it */
    unsigned valid;            /* how many are valid: 0, only the present one, or both */
    unsigned drawn_at;         /* when the present one was drawn, in milliseconds modulo 2^32 */
};

/* How many are still valid at this time: the present one expires after two periods. So no long sleep lets an old token act. */
UIP_INLINE unsigned token_count(const struct token_pair *pair, unsigned now) {
    unsigned age = now - pair->drawn_at;
    if (pair->period == 0 || age < pair->period) return pair->valid;
    return pair->valid > 0 && age < 2 * pair->period ? 1 : 0;
}

/* Ends all tokens: no page that a browser has acts now. Call it when the state has changed that the pages show. */
UIP_INLINE void token_end(struct token_pair *pair) { pair->valid = 0; }

/* Whether a new token is due at this time, in milliseconds modulo 2^32: if none is valid, or one period after the last was drawn. Take a
 * clock that also counts in a sleep. If a pass may come later than 2^32 ms (49 days) after the one before, call token_end before that
 * sleep.
 */
UIP_INLINE int token_is_due(const struct token_pair *pair, unsigned now) {
    return pair->valid == 0 || (pair->period > 0 && now - pair->drawn_at >= pair->period);
}

/* Draws a new token of 64 bits, which no earlier one had: two random numbers, or one of the start and a count. Set it as a value in the
 * same pass. The token before it stays valid until the next is drawn, unless it was ended, used, or has expired.
 */
UIP_INLINE void token_draw(struct token_pair *pair, unsigned now, unsigned high, unsigned low) {
    unsigned k, half;
    pair->valid = token_count(pair, now) > 0 ? 2 : 1;
    for (k = 0; k < TOKEN_LEN; k++) {
        half = k < 8 ? high : low;
        pair->older[k] = pair->text[k];
        pair->text[k] = "0123456789abcdef"[(half >> (28 - k % 8 * 4)) & 15];
    }
    pair->drawn_at = now;
}

/* Whether the field NAME=.. of a query is a valid token. If so, all are used up: the same request, or an older page, does nothing more. */
UIP_INLINE int token_take(struct token_pair *pair, unsigned now, const unsigned char *query, size_t len, const char *name) {
    unsigned count = token_count(pair, now);
    int is_valid = (count > 0 && token_in(query, len, name, pair->text, TOKEN_LEN))
        || (count > 1 && token_in(query, len, name, pair->older, TOKEN_LEN));
    if (is_valid) token_end(pair);
    return is_valid;
}

#endif
