// Tries support/token.h: each line has what was expected, by hand. The numbers of lines name the ones that fail.
#include <stdio.h>
#include <string.h>
#include "../../support/token.h"

#define SEE(is_so) see(is_so, __LINE__)

static int wrong;

static void see(int is_so, int line) {
    if (is_so) return;
    fprintf(stderr, "token_test.c:%d: not so\n", line);
    wrong = 1;
}

// Whether a request with this token acts.
static int acts(struct token_pair *pair, unsigned now, const char *token) {
    char query[64];
    int len = snprintf(query, sizeof query, "a=1&n=%s&d=2", token);
    return token_take(pair, now, (const unsigned char *)query, (size_t)len, "n");
}

// Whether a request with this token would act. It uses none up.
static int would_act(const struct token_pair *pair, unsigned now, const char *token) {
    struct token_pair copy = *pair;
    return acts(&copy, now, token);
}

static void see_text(void) {
    struct token_pair pair = {0};
    token_draw(&pair, 0, 0x0123ABCD, 0xEF000001);
    SEE(TOKEN_LEN == 16 && memcmp(pair.text, "0123abcdef000001", 16) == 0);
    token_draw(&pair, 0, 0, 0xFFFFFFFF);
    SEE(memcmp(pair.text, "00000000ffffffff", 16) == 0 && memcmp(pair.older, "0123abcdef000001", 16) == 0);
}

static void see_none(void) {
    struct token_pair pair = {0};
    SEE(token_is_due(&pair, 0) && token_is_due(&pair, 12345));
    SEE(!acts(&pair, 0, "") && !acts(&pair, 0, "0000000000000000"));
    SEE(!token_take(&pair, 0, (const unsigned char *)"", 0, "n"));
    pair.period = 1000;
    SEE(token_is_due(&pair, 0) && token_is_due(&pair, 999));
    SEE(!acts(&pair, 0, "") && !acts(&pair, 0, "0000000000000000"));
}

static void see_once(void) {
    struct token_pair pair = {.period = 1000};
    token_draw(&pair, 50, 1, 2);
    SEE(!token_is_due(&pair, 50) && !token_is_due(&pair, 1049));
    SEE(!acts(&pair, 60, "0000000100000003") && !acts(&pair, 60, "00000001") && !acts(&pair, 60, "00000001000000020"));
    SEE(!acts(&pair, 60, "") && !token_take(&pair, 60, (const unsigned char *)"m=0000000100000002", 18, "n"));
    SEE(acts(&pair, 60, "0000000100000002"));                  // the wrong ones have not used it up
    SEE(!acts(&pair, 60, "0000000100000002"));                 // once
    SEE(token_is_due(&pair, 60));
    token_draw(&pair, 60, 1, 3);
    SEE(!acts(&pair, 61, "0000000100000002"));                 // nor after the next was drawn
    SEE(acts(&pair, 61, "0000000100000003"));
}

static void see_older(void) {
    struct token_pair pair = {.period = 1000};
    token_draw(&pair, 0, 1, 1);
    SEE(!token_is_due(&pair, 999) && token_is_due(&pair, 1000));
    token_draw(&pair, 1000, 1, 2);
    SEE(would_act(&pair, 1999, "0000000100000001") && would_act(&pair, 1999, "0000000100000002"));
    SEE(!would_act(&pair, 2000, "0000000100000001"));          // the next one is due, and not yet drawn
    SEE(would_act(&pair, 2000, "0000000100000002"));
    token_draw(&pair, 2000, 1, 3);
    SEE(!would_act(&pair, 2000, "0000000100000001"));
    SEE(would_act(&pair, 2000, "0000000100000002") && would_act(&pair, 2000, "0000000100000003"));
    SEE(acts(&pair, 2500, "0000000100000002"));                // the older one, when used, uses up both
    SEE(!acts(&pair, 2500, "0000000100000002") && !acts(&pair, 2500, "0000000100000003"));
}

static void see_change(void) {
    struct token_pair pair = {.period = 1000};
    token_draw(&pair, 0, 1, 1);
    token_draw(&pair, 1000, 1, 2);
    token_end(&pair);
    SEE(!would_act(&pair, 1000, "0000000100000001") && !would_act(&pair, 1000, "0000000100000002"));
    SEE(!would_act(&pair, 2000, "0000000100000002") && !would_act(&pair, 2999, "0000000100000002"));    // nor after a period
    SEE(token_is_due(&pair, 1000));
    struct token_pair later = pair;
    token_draw(&later, 2500, 1, 3);
    SEE(!would_act(&later, 2500, "0000000100000002") && would_act(&later, 2500, "0000000100000003"));
    token_draw(&pair, 1000, 1, 3);
    SEE(!would_act(&pair, 1001, "0000000100000001") && !would_act(&pair, 1001, "0000000100000002"));
    SEE(would_act(&pair, 1001, "0000000100000003"));
}

// The clock passes 2^32 ms: 4294967295 is the last millisecond before 0.
static void see_wrap(void) {
    struct token_pair pair = {.period = 1000};
    token_draw(&pair, 4294966896u, 1, 1);                      // 400 ms before 0
    SEE(!token_is_due(&pair, 4294967295u) && !token_is_due(&pair, 0) && !token_is_due(&pair, 599) && token_is_due(&pair, 600));
    SEE(would_act(&pair, 599, "0000000100000001"));
    token_draw(&pair, 600, 1, 2);
    SEE(would_act(&pair, 1599, "0000000100000001") && !would_act(&pair, 1600, "0000000100000001"));
    SEE(would_act(&pair, 2599, "0000000100000002") && !would_act(&pair, 2600, "0000000100000002"));
}

// After a sleep the first pass may have a late request, before a new token is drawn, or after.
static void see_sleep(void) {
    struct token_pair pair = {.period = 1000};
    token_draw(&pair, 0, 1, 1);
    token_draw(&pair, 1000, 1, 2);
    SEE(would_act(&pair, 2999, "0000000100000002") && !would_act(&pair, 2999, "0000000100000001"));
    SEE(!would_act(&pair, 3000, "0000000100000002") && !would_act(&pair, 86401000, "0000000100000002"));
    SEE(!would_act(&pair, 4294967295u, "0000000100000002"));   // 49 days
    SEE(token_is_due(&pair, 3000) && token_is_due(&pair, 86401000));
    struct token_pair late = pair;
    token_draw(&late, 2999, 1, 3);                             // within two periods: the one before stays valid
    SEE(would_act(&late, 3998, "0000000100000002") && !would_act(&late, 3999, "0000000100000002"));
    token_draw(&pair, 3000, 1, 3);                             // two periods: it does not
    SEE(!would_act(&pair, 3000, "0000000100000002") && !would_act(&pair, 3000, "0000000100000001"));
    SEE(would_act(&pair, 3000, "0000000100000003"));
    token_draw(&pair, 4000, 1, 4);                             // nor is it valid again with the next
    SEE(!would_act(&pair, 4000, "0000000100000002") && would_act(&pair, 4000, "0000000100000003"));
}

static void see_no_period(void) {
    struct token_pair pair = {0};
    token_draw(&pair, 7, 1, 1);
    SEE(!token_is_due(&pair, 7) && !token_is_due(&pair, 6) && !token_is_due(&pair, 86400000));
    SEE(would_act(&pair, 6, "0000000100000001") && acts(&pair, 86400000, "0000000100000001"));
    SEE(!acts(&pair, 86400000, "0000000100000001") && token_is_due(&pair, 86400000));
    token_draw(&pair, 0, 1, 2);
    SEE(!acts(&pair, 0, "0000000100000001") && acts(&pair, 0, "0000000100000002"));
}

int main(void) {
    see_text();
    see_none();
    see_once();
    see_older();
    see_change();
    see_wrap();
    see_sleep();
    see_no_period();
    return wrong;
}
