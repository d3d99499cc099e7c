/*
 * A test of support/outcome.h, with expected texts worked out by hand. It prints what is wrong, and returns 0 if nothing is.
 *
 * SPDX-License-Identifier: MIT OR Apache-2.0
 * Copyright 2026 The Lowunbisa authors
 */
#include <stdio.h>
#include "../../support/outcome.h"

static struct outcomes outcomes = NO_OUTCOMES;
static unsigned wrong;

static void shows(const char *what, const char *expected) {
    char text[UIP_MAX_VALUE + 1];
    size_t len = outcome_text(&outcomes, text);
    if (len == strlen(expected) && memcmp(text, expected, len) == 0) return;
    printf("outcome.h: %s: %.*s\n", what, (int)len, text);
    wrong++;
}

static void adds(const char *query, const char *refused) {
    outcome_add(&outcomes, (const unsigned char *)query, strlen(query), refused);
}

int main(void) {
    shows("at the start", "- none - none");
    adds("n=1&d=aaaa0001", NULL);
    shows("accepted", "aaaa0001 accepted - none");
    adds("n=1&d=aaaa0001", "old");
    shows("the same request again", "aaaa0001 accepted - none");
    adds("n=1&d=bbbb0002", "old");
    shows("another one, refused: 30 bytes", "bbbb0002 old aaaa0001 accepted");
    adds("n=1&d=aaaa0001", "old");
    shows("the accepted one again, after a refusal", "aaaa0001 accepted bbbb0002 old");
    adds("n=2&d=cccc0003", "flash");
    shows("the longest: 32 bytes", "cccc0003 flash aaaa0001 accepted");
    adds("n=2&d=dddd0004", NULL);
    shows("accepted again", "dddd0004 accepted cccc0003 flash");
    adds("n=2&d=x123456789", "old");
    shows("a long tag: its end", "23456789 old dddd0004 accepted");
    adds("n=77", NULL);
    shows("no field d: the end of the query", "n=77 accepted 23456789 old");
    adds("n=77&d=", "old");
    shows("an empty field d: the end of the query", "n=77&d= old n=77 accepted");
    adds("", "old");
    shows("no query", "- old n=77 accepted");
    adds("", NULL);
    adds("", "range");
    shows("no query is never the same request", "- range - accepted");
    adds("d=eeee0005&n=1", NULL);
    shows("the field d is not the last one", "eeee0005 accepted - range");
    adds("n=1&d=eeee", "old");
    shows("the start of the accepted tag is another one", "eeee old eeee0005 accepted");
    return wrong != 0;
}
