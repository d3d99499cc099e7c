/*
 * What became of the requests of a form, for the page that sent them. Two browsers see the same values. So each page draws a tag for each
 * click, sends it as the field `d` beside its token, and looks for the tag in a value:
 *
 *     static struct outcomes outcomes = NO_OUTCOMES;
 *
 *     // If a request has come, with `query` of `len` bytes from uip_query: n=5ab01c7700e2d94f&d=3f9a0c71
 *     char text[UIP_MAX_VALUE];
 *     const char *refused = "old";
 *     if (token_take(&token, milliseconds(), query, len, "n")) refused = act();    // act returns null, or why it refuses
 *     outcome_add(&outcomes, query, len, refused);
 *     uip_set_value(&device, 3, text, outcome_text(&outcomes, text));              // 3f9a0c71 accepted 00c2d1e4 old
 *
 * The last accepted and the last refused outcome are kept, each with its tag, since a refusal of another browser may come in between. If
 * the request that was accepted comes again, as when its reply is loaded again, its token is used, and its outcome stays "accepted".
 *
 * SPDX-License-Identifier: MIT OR Apache-2.0
 * Copyright 2026 The Lowunbisa authors
 */
#ifndef OUTCOME_H
#define OUTCOME_H

#include <string.h>
#include "text.h"

enum { TAG_LEN = 8 };          /* the most bytes of a tag that are kept */

struct outcome {
    char tag[TAG_LEN];
    size_t len;                /* of the tag, 1 or more */
    const char *word;
};

struct outcomes {
    struct outcome accepted, refused;      /* the last of each kind */
    int is_refused_newer;
};

#define NO_OUTCOMES {{"-", 1, "none"}, {"-", 1, "none"}, 0}

/* The outcome of a request. Its tag is the end of the field d or, if a page without a script sends none, of the query; `-` if that is empty. */
UIP_INLINE struct outcome outcome_of(const unsigned char *query, size_t len, const char *word) {
    struct outcome outcome = {"-", 1, NULL};
    size_t size = 0;
    const unsigned char *tag = field_in(query, len, "d", &size);
    const unsigned char *end = size > 0 ? tag + size : query + len;
    outcome.word = word;
    if (len == 0) return outcome;
    if (size == 0) size = len;
    outcome.len = size < (size_t)TAG_LEN ? size : (size_t)TAG_LEN;
    memcpy(outcome.tag, end - outcome.len, outcome.len);
    return outcome;
}

/* Adds what became of a request. `refused` is null if it was accepted; else it is a word of at most 5 characters, which stays as it is. */
UIP_INLINE void outcome_add(struct outcomes *to, const unsigned char *query, size_t len, const char *refused) {
    struct outcome outcome = outcome_of(query, len, refused ? refused : "accepted");
    int is_again = len > 0 && outcome.len == to->accepted.len && memcmp(outcome.tag, to->accepted.tag, outcome.len) == 0;
    to->is_refused_newer = refused && !is_again;
    if (!refused) to->accepted = outcome;
    else if (!is_again) to->refused = outcome;
}

UIP_INLINE size_t outcome_put(char *to, const struct outcome *outcome) {
    size_t size = strlen(outcome->word);
    memcpy(to, outcome->tag, outcome->len);
    to[outcome->len] = ' ';
    memcpy(to + outcome->len + 1, outcome->word, size);
    return outcome->len + 1 + size;
}

/* Writes both outcomes, the newer one first, as one text of at most UIP_MAX_VALUE bytes, without a 0 at its end. Returns its length. */
UIP_INLINE size_t outcome_text(const struct outcomes *from, char *to) {
    size_t len = outcome_put(to, from->is_refused_newer ? &from->refused : &from->accepted);
    to[len++] = ' ';
    return len + outcome_put(to + len, from->is_refused_newer ? &from->accepted : &from->refused);
}

#endif
