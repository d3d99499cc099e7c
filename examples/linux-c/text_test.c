// Tries support/text.h: each line has what was expected, by hand.
#include <limits.h>
#include <stdio.h>
#include <string.h>
#include "../../support/text.h"

static int wrong;

static void see(int is_so, const char *what) {
    if (is_so) return;
    fprintf(stderr, "text_test: %s\n", what);
    wrong = 1;
}

static void see_tenths(int tenths, const char *expected) {
    char text[12];
    size_t len = tenths_text(text, tenths);
    see(len == strlen(expected) && !memcmp(text, expected, len), expected);
}

static void see_number(const char *query, int is_there, unsigned expected) {
    unsigned number = 7;
    int found = number_in((const unsigned char *)query, strlen(query), "limit", &number);
    see(found == is_there && number == (is_there ? expected : 7), query);
}

static void see_text(const char *query, size_t room, const char *expected) {
    char text[16];
    size_t size = 99;
    int found = text_in((const unsigned char *)query, strlen(query), "name", text, room, &size);
    see(found == !!expected && (found ? size == strlen(expected) && !memcmp(text, expected, size) : size == 99), query);
}

static void see_tenths_in(const char *query, int found, unsigned expected) {
    unsigned tenths = 7;
    int is_found = tenths_in((const unsigned char *)query, strlen(query), "dose", &tenths);
    see(is_found == found && tenths == (found ? expected : 7), query);
}

static void see_address_in(const char *query, int found, const char *expected) {
    unsigned char address[4] = {1, 2, 3, 4};
    char text[16];
    int is_found = address_in((const unsigned char *)query, strlen(query), "own", address);
    size_t len = address_text(text, address);
    see(is_found == found && len == strlen(expected) && !memcmp(text, expected, len), query);
}

static void see_host(const char *own, const char *mask, int expected) {
    unsigned char addresses[2][4] = {{0, 0, 0, 0}, {0, 0, 0, 0}};
    char query[48];
    int len = snprintf(query, sizeof query, "a=%s&m=%s", own, mask);
    see(address_in((const unsigned char *)query, (size_t)len, "a", addresses[0]) && address_in((const unsigned char *)query, (size_t)len, "m", addresses[1])
            && is_host(addresses[0], addresses[1]) == expected, query);
}

static void see_mask(unsigned prefix, int found, const char *expected) {
    unsigned char mask[4] = {1, 2, 3, 4};
    char text[16];
    int is_found = mask_of(prefix, mask);
    size_t len = address_text(text, mask);
    see(is_found == found && len == strlen(expected) && !memcmp(text, expected, len), expected);
}

static void see_networks(void) {
    static const unsigned char one[4] = {10, 0, 0, 1}, other[4] = {10, 0, 1, 1}, wide[4] = {255, 255, 0, 0}, narrow[4] = {255, 255, 255, 0};
    see(is_same_network(one, other, wide) && !is_same_network(one, other, narrow) && is_same_network(one, one, narrow), "networks");
}

static void see_signed_tenths_in(const char *query, int found, int expected) {
    int tenths = 7;
    int is_found = signed_tenths_in((const unsigned char *)query, strlen(query), "dose", &tenths);
    see(is_found == found && tenths == (found ? expected : 7), query);
}

static void see_signed(int number, const char *expected) {
    char text[11];
    size_t len = signed_decimal(text, number);
    see(len == strlen(expected) && !memcmp(text, expected, len), expected);
}

static void see_signed_in(const char *query, int found, int expected) {
    int number = 7;
    int is_found = signed_number_in((const unsigned char *)query, strlen(query), "limit", &number);
    see(is_found == found && number == (found ? expected : 7), query);
}

static void see_token(const char *query, const char *token, int expected) {
    see(token_in((const unsigned char *)query, strlen(query), "n", token, strlen(token)) == expected, query);
}

int main(void) {
    see_tenths(0, "0.0"), see_tenths(-5, "-0.5"), see_tenths(-55, "-5.5"), see_tenths(215, "21.5");
    see_tenths(INT_MAX, "214748364.7"), see_tenths(INT_MIN, "-214748364.8");
    see_number("limit=21", 1, 21), see_number("limit=0&n=5", 1, 0), see_number("n=5&limit=100", 1, 100);
    see_number("limit=999999999", 1, 999999999);
    see_number("", 0, 0), see_number("limit", 0, 0), see_number("limit=", 0, 0), see_number("limits=3", 0, 0), see_number("xlimit=3", 0, 0);
    see_number("limit=1234567890", 0, 0), see_number("limit=-1", 0, 0), see_number("limit=1a", 0, 0), see_number("&limit=3", 1, 3);
    see_tenths_in("dose=12.5", 1, 125), see_tenths_in("dose=12.50&n=1", 1, 125), see_tenths_in("dose=12", 1, 120);
    see_tenths_in("dose=.5", 1, 5), see_tenths_in("dose=5.", 1, 50), see_tenths_in("n=1&dose=0", 1, 0), see_tenths_in("dose=99999999", 1, 999999990);
    see_tenths_in("dose=1234567.8", 1, 12345678), see_tenths_in("dose=123456789", 0, 0), see_tenths_in("dose=12345678.9", 0, 0);
    see_tenths_in("dose=12.55", 0, 0), see_tenths_in("dose=", 0, 0), see_tenths_in("dose=.", 0, 0), see_tenths_in("dose=1.2.3", 0, 0);
    see_tenths_in("dose=-1", 0, 0), see_tenths_in("dose=1e2", 0, 0), see_tenths_in("", 0, 0);
    see_networks();
    see_mask(24, 1, "255.255.255.0"), see_mask(0, 1, "0.0.0.0"), see_mask(32, 1, "255.255.255.255"), see_mask(33, 0, "1.2.3.4");
    see_mask(1, 1, "128.0.0.0"), see_mask(15, 1, "255.254.0.0"), see_mask(16, 1, "255.255.0.0"), see_mask(30, 1, "255.255.255.252");
    see_host("10.0.0.1", "255.255.255.0", 1), see_host("10.0.0.0", "255.255.255.0", 0), see_host("10.0.0.255", "255.255.255.0", 0);
    see_host("10.0.1.255", "255.255.0.0", 1), see_host("10.0.255.255", "255.255.0.0", 0), see_host("10.0.0.255", "0.0.0.0", 1);
    see_host("192.168.7.1", "255.255.255.254", 1), see_host("192.168.7.1", "255.255.255.255", 1), see_host("192.168.7.3", "255.255.255.252", 0);
    see_host("0.1.2.3", "255.255.255.0", 0), see_host("127.0.0.1", "255.0.0.0", 0), see_host("224.0.0.1", "255.255.255.0", 0);
    see_host("223.255.254.1", "255.255.255.0", 1), see_host("255.255.255.255", "0.0.0.0", 0), see_host("1.0.0.1", "255.255.255.0", 1);
    see_address_in("own=10.0.0.1", 1, "10.0.0.1"), see_address_in("n=1&own=255.255.255.255", 1, "255.255.255.255");
    see_address_in("own=0.0.0.0", 1, "0.0.0.0"), see_address_in("own=010.0.0.1", 1, "10.0.0.1"), see_address_in("own=10.0.0.256", 0, "1.2.3.4");
    see_address_in("own=10.0.0", 0, "1.2.3.4"), see_address_in("own=10.0.0.", 0, "1.2.3.4"), see_address_in("own=.10.0.0", 0, "1.2.3.4");
    see_address_in("own=10.0.0.1.2", 0, "1.2.3.4"), see_address_in("own=10..0.1", 0, "1.2.3.4"), see_address_in("own=0010.0.0.1", 0, "1.2.3.4");
    see_address_in("own=10.0.0.-1", 0, "1.2.3.4"), see_address_in("own=", 0, "1.2.3.4"), see_address_in("n=10.0.0.1", 0, "1.2.3.4");
    see_signed_tenths_in("dose=-5.5", 1, -55), see_signed_tenths_in("n=1&dose=5.5", 1, 55), see_signed_tenths_in("dose=-0", 1, 0);
    see_signed_tenths_in("dose=-99999999", 1, -999999990), see_signed_tenths_in("dose=99999999", 1, 999999990);
    see_signed_tenths_in("dose=-", 0, 0), see_signed_tenths_in("dose=--1", 0, 0), see_signed_tenths_in("dose=", 0, 0);
    see_signed_tenths_in("dose=-.", 0, 0), see_signed_tenths_in("dose=-1.25", 0, 0), see_signed_tenths_in("n=-1", 0, 0);
    see_signed(0, "0"), see_signed(-1, "-1"), see_signed(12, "12"), see_signed(-12, "-12"), see_signed(-100, "-100");
    see_signed(INT_MAX, "2147483647"), see_signed(INT_MIN, "-2147483648"), see_signed(INT_MIN + 1, "-2147483647");
    see_signed_in("limit=-12", 1, -12), see_signed_in("n=1&limit=12", 1, 12), see_signed_in("limit=-0", 1, 0), see_signed_in("limit=0", 1, 0);
    see_signed_in("limit=-012&n=1", 1, -12), see_signed_in("limit=999999999", 1, 999999999), see_signed_in("limit=-999999999", 1, -999999999);
    see_signed_in("limit=1000000000", 0, 0), see_signed_in("limit=-1000000000", 0, 0), see_signed_in("limit=-2147483648", 0, 0);
    see_signed_in("limit=-", 0, 0), see_signed_in("limit=", 0, 0), see_signed_in("limit=--1", 0, 0), see_signed_in("limit=1-", 0, 0);
    see_signed_in("limit=-&n=1", 0, 0), see_signed_in("limit=+1", 0, 0), see_signed_in("limit=-1.0", 0, 0), see_signed_in("n=-1", 0, 0);
    see_signed_in("", 0, 0), see_signed_in("limit", 0, 0);
    see_text("name=a", 16, "a"), see_text("n=1&name=caf%C3%A9+x&b=2", 16, "caf\xC3\xA9 x"), see_text("name=", 16, "");
    see_text("name=%41%62", 2, "Ab");
    see_text("name=%4", 16, NULL), see_text("name=%", 16, NULL), see_text("name=%4g", 16, NULL), see_text("name=abc", 2, NULL);
    see_text("nam=abc", 16, NULL);
    see_token("n=17-3", "17-3", 1), see_token("n=17-3", "17-4", 0), see_token("n=17-31", "17-3", 0), see_token("n=17-", "17-3", 0);
    see_token("n=", "", 0), see_token("", "", 0), see_token("m=1", "1", 0), see_token("n=1&a=2", "1", 1), see_token("a=2&n=1", "1", 1), see_token("an=1", "1", 0);
    return wrong;
}
