// The values that C gives the devices, and how a page spells one, by docs/FORMATS.md.
#include <stdio.h>
#include <string.h>
#include "pages.h"

static value values[UIP_VALUES];

void values_begin(void) { memset(values, 0, sizeof values); }

void values_given(unsigned number, const value *given) { values[number] = *given; }

// A text of any bytes, or of those that a page spells in a way of its own, or a number.
value random_value(void) {
    static const byte marks[] = "\"\\&<>'/\0\n\x1f\x20\x7f\x80\xc0\xdb";
    value v = {.len = chance(20) ? UIP_MAX_VALUE : below(UIP_MAX_VALUE + 1)};
    unsigned kind = below(4);
    random_bytes(v.bytes, v.len);
    for (size_t at = 0; at < v.len && kind; at++) if (kind > 1 || chance(40)) v.bytes[at] = marks[below(sizeof marks - 1)];
    if (kind == 3) v.len = (size_t)snprintf((char *)v.bytes, sizeof v.bytes, "%u", (unsigned)random_next());
    return v;
}

// The number that an argument names, or UIP_VALUES: decimal digits without a leading zero.
static unsigned number_named(const byte *argument, size_t len) {
    int is_digit = len && argument[0] >= '0' && argument[0] <= '9', is_teen = len == 2 && argument[0] == '1';
    if (len == 1 && is_digit) return argument[0] - '0';
    return is_teen && argument[1] >= '0' && argument[1] <= '5' ? 10u + argument[1] - '0' : UIP_VALUES;
}

static const char *spelled_byte(byte b, int spelling) {
    static char escaped[8];
    if (spelling == 1 && b < 32) { snprintf(escaped, sizeof escaped, "\\u%04x", b); return escaped; }
    if (spelling == 1) return b == '"' ? "\\\"" : b == '\\' ? "\\\\" : 0;
    if (spelling == 2) return b == '&' ? "&amp;" : b == '<' ? "&lt;" : b == '>' ? "&gt;" : b == '"' ? "&quot;" : b == '\'' ? "&#39;" : 0;
    return 0;
}

size_t spell_value(const byte *argument, size_t argument_len, int spelling, byte *to) {
    unsigned number = number_named(argument, argument_len);
    size_t len = 0;
    for (size_t at = 0; number < UIP_VALUES && at < values[number].len; at++) {
        byte b = values[number].bytes[at];
        const char *words = spelled_byte(b, spelling);
        if (words) memcpy(to + len, words, strlen(words)), len += strlen(words);
        else to[len++] = b;
    }
    return len;
}
