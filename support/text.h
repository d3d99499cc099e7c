/*
 * Numbers as texts for uip_set_value, and the fields of a query (uip_query), without the C library.
 *
 *     char text[UIP_MAX_VALUE];
 *     uip_set_value(&device, 3, text, tenths_text(text, -55));                  // -5.5
 *
 *     // got of uip_query, with `query`: limit=21&name=caf%C3%A9&n=1764547200000
 *     unsigned limit;
 *     size_t len;
 *     char name[16];
 *     if (number_in(query, got.len, "limit", &limit) && limit <= 100) ..        // 21; tenths_in reads 21.5 as 215, and
 *                                                                               // signed_tenths_in also -5.5 as -55;
 *                                                                               // signed_number_in reads -21
 *     if (text_in(query, got.len, "name", name, sizeof name, &len)) ..          // 5 bytes of UTF-8
 *
 * SPDX-License-Identifier: MIT OR Apache-2.0
 * Copyright 2026 The Lowunbisa authors
 */
#ifndef TEXT_H
#define TEXT_H

#include "uip.h"

/* Writes a number in decimal, 10 bytes at most, without a 0 at its end. Returns their number. */
UIP_INLINE size_t decimal(char *to, unsigned number) {
    char digits[10];
    size_t count = 0, len = 0;
    do digits[count++] = (char)('0' + number % 10); while (number /= 10);
    while (count) to[len++] = digits[--count];
    return len;
}

/* The same for a number that may be negative, 11 bytes at most: -12. */
UIP_INLINE size_t signed_decimal(char *to, int number) {
    if (number >= 0) return decimal(to, (unsigned)number);
    to[0] = '-';
    return 1 + decimal(to + 1, 0u - (unsigned)number);
}

/* Writes a number of tenths: -55 as -5.5. 12 bytes at most, without a 0 at their end. Returns their number. Two of them fit into a value;
 * three take up to 38 bytes, if you do not limit the numbers.
 */
UIP_INLINE size_t tenths_text(char *to, int tenths) {
    unsigned magnitude = tenths < 0 ? 0u - (unsigned)tenths : (unsigned)tenths;
    size_t len = 0;
    if (tenths < 0) to[len++] = '-';
    len += decimal(to + len, magnitude / 10);
    to[len++] = '.';
    return len + decimal(to + len, magnitude % 10);
}

/* The value of a hexadecimal digit, or 16. */
UIP_INLINE unsigned digit_of(unsigned char byte) {
    if (byte >= '0' && byte <= '9') return byte - '0';
    if (byte >= 'A' && byte <= 'F') return byte - 'A' + 10;
    if (byte >= 'a' && byte <= 'f') return byte - 'a' + 10;
    return 16;
}

/* Finds the field NAME=.. of a query: its bytes, as they came, and their number. Returns null if there is none. */
UIP_INLINE const unsigned char *field_in(const unsigned char *query, size_t len, const char *name, size_t *size) {
    size_t at = 0, end, k;
    while (at < len) {
        for (end = at; end < len && query[end] != '&'; end++) continue;
        for (k = 0; name[k] && at + k < end && query[at + k] == (unsigned char)name[k]; k++) continue;
        if (!name[k] && at + k < end && query[at + k] == '=') {
            *size = end - at - k - 1;
            return query + at + k + 1;
        }
        at = end + 1;
    }
    return NULL;
}

/* Reads a text of one to nine digits. Returns 0, and changes nothing, if it is none such. */
UIP_INLINE int number_of(const unsigned char *text, size_t size, unsigned *number) {
    size_t k;
    unsigned sum = 0;
    if (size < 1 || size > 9) return 0;
    for (k = 0; k < size; k++) {
        if (digit_of(text[k]) > 9) return 0;
        sum = sum * 10 + digit_of(text[k]);
    }
    *number = sum;
    return 1;
}

/* Reads the field NAME=DIGITS, of one to nine digits. Returns 0, and changes nothing, if there is none such. */
UIP_INLINE int number_in(const unsigned char *query, size_t len, const char *name, unsigned *number) {
    size_t size;
    const unsigned char *field = field_in(query, len, name, &size);
    return field ? number_of(field, size, number) : 0;
}

/* The same for a number that may have the sign - before it: -12. */
UIP_INLINE int signed_number_in(const unsigned char *query, size_t len, const char *name, int *number) {
    size_t size;
    unsigned magnitude;
    const unsigned char *field = field_in(query, len, name, &size);
    int is_negative = field && size > 0 && field[0] == '-';
    if (!field || !number_of(field + is_negative, size - (size_t)is_negative, &magnitude)) return 0;
    *number = is_negative ? -(int)magnitude : (int)magnitude;
    return 1;
}

/* Reads a text in tenths, of one to eight digits. Returns 0, and changes nothing, if it is no whole number of tenths. */
UIP_INLINE int tenths_of(const unsigned char *text, size_t size, unsigned *tenths) {
    size_t k, digits = 0, decimals = 0;
    unsigned sum = 0;
    int is_after_point = 0;
    for (k = 0; k < size; k++) {
        if (text[k] == '.' && !is_after_point) {
            is_after_point = 1;
        } else if (digit_of(text[k]) > 9) {
            return 0;
        } else if (is_after_point && decimals++ > 0) {
            if (text[k] != '0') return 0;
        } else {
            if (digits++ == 8) return 0;
            sum = sum * 10 + digit_of(text[k]);
        }
    }
    if (digits == 0) return 0;
    *tenths = decimals ? sum : sum * 10;
    return 1;
}

/* Reads the field NAME=NUMBER in tenths, of one to eight digits: 12.5 is 125, as is 12.50; 12 is 120, and .5 is 5. Returns 0, and
 * changes nothing, if there is none such, if it is no whole number of tenths, or if it has a sign.
 */
UIP_INLINE int tenths_in(const unsigned char *query, size_t len, const char *name, unsigned *tenths) {
    size_t size;
    const unsigned char *field = field_in(query, len, name, &size);
    return field ? tenths_of(field, size, tenths) : 0;
}

/* The same for a number that may have the sign - before it: -5.5 is -55. */
UIP_INLINE int signed_tenths_in(const unsigned char *query, size_t len, const char *name, int *tenths) {
    size_t size;
    unsigned magnitude;
    const unsigned char *field = field_in(query, len, name, &size);
    int is_negative = field && size > 0 && field[0] == '-';
    if (!field || !tenths_of(field + is_negative, size - (size_t)is_negative, &magnitude)) return 0;
    *tenths = is_negative ? -(int)magnitude : (int)magnitude;
    return 1;
}

/* Reads the field NAME=ADDRESS, such as 10.0.0.1: four numbers of at most 255, each of one to three digits. Returns 0, and changes
 * nothing, if there is none such; an empty field is none. Not tested: whether it is the address of a host.
 */
UIP_INLINE int address_in(const unsigned char *query, size_t len, const char *name, unsigned char address[4]) {
    size_t size, k, part = 0, digits = 0;
    unsigned numbers[4] = {0, 0, 0, 0};
    const unsigned char *field = field_in(query, len, name, &size);
    if (!field) return 0;
    for (k = 0; k < size; k++) {
        if (field[k] == '.') {
            if (digits == 0 || part == 3) return 0;
            part++;
            digits = 0;
            continue;
        }
        if (digit_of(field[k]) > 9 || digits++ == 3) return 0;
        numbers[part] = numbers[part] * 10 + digit_of(field[k]);
        if (numbers[part] > 255) return 0;
    }
    if (part != 3 || digits == 0) return 0;
    for (k = 0; k < 4; k++) address[k] = (unsigned char)numbers[k];
    return 1;
}

/* Whether an address can be that of a host: its first byte is 1 to 223 and not 127. With a mask of up to 30 bits, its part for the host
 * is neither all 0 nor all 1. Pass a mask of 0.0.0.0 for a serial line.
 */
UIP_INLINE int is_host(const unsigned char address[4], const unsigned char mask[4]) {
    unsigned host = 0, all = 0;
    size_t k;
    for (k = 0; k < 4; k++) {
        host = host << 8 | (address[k] & (255u ^ mask[k]));
        all = all << 8 | (255u ^ mask[k]);
    }
    if (address[0] == 0 || address[0] == 127 || address[0] > 223) return 0;
    return all < 3 || (host != 0 && host != all);
}

/* The mask of a prefix length of 0 to 32: that of 24 is 255.255.255.0. Returns 0, and changes nothing, if it is greater. */
UIP_INLINE int mask_of(unsigned prefix, unsigned char mask[4]) {
    unsigned k, left;
    if (prefix > 32) return 0;
    for (k = 0; k < 4; k++) {
        left = prefix > 8 * k ? prefix - 8 * k : 0;
        mask[k] = (unsigned char)(left >= 8 ? 255u : 255u - (255u >> left));
    }
    return 1;
}

/* Whether two addresses are of one network. */
UIP_INLINE int is_same_network(const unsigned char one[4], const unsigned char other[4], const unsigned char mask[4]) {
    size_t k;
    for (k = 0; k < 4 && ((one[k] ^ other[k]) & mask[k]) == 0; k++) continue;
    return k == 4;
}

/* Writes an address: 10.0.0.1. 15 bytes at most, without a 0 at their end. Returns their number. */
UIP_INLINE size_t address_text(char *to, const unsigned char address[4]) {
    size_t k, len = 0;
    for (k = 0; k < 4; k++) {
        if (k > 0) to[len++] = '.';
        len += decimal(to + len, address[k]);
    }
    return len;
}

/* Copies the text of the field NAME=TEXT, with + as a space, and %XX as a byte, without a 0 at its end. Returns 0 if there
 * is none, if it has more than `room` bytes, or if a % has no two digits; then `to` may be changed, and `size` is not.
 */
UIP_INLINE int text_in(const unsigned char *query, size_t len, const char *name, char *to, size_t room, size_t *size) {
    size_t count, k, done = 0;
    const unsigned char *field = field_in(query, len, name, &count);
    if (!field) return 0;
    for (k = 0; k < count; k++) {
        unsigned byte = field[k] == '+' ? ' ' : field[k];
        if (byte == '%') {
            if (count - k < 3 || digit_of(field[k + 1]) > 15 || digit_of(field[k + 2]) > 15) return 0;
            byte = digit_of(field[k + 1]) * 16 + digit_of(field[k + 2]);
            k += 2;
        }
        if (done == room) return 0;
        to[done++] = (char)byte;
    }
    *size = done;
    return 1;
}

/* Whether the field NAME=.. is this token, of one byte or more, or a fixed word: token_in(query, len, "c", UIP_TEXT("open")). */
UIP_INLINE int token_in(const unsigned char *query, size_t len, const char *name, const char *token, size_t token_len) {
    size_t size, k;
    const unsigned char *field = field_in(query, len, name, &size);
    if (!field || token_len == 0 || size != token_len) return 0;
    for (k = 0; k < size && field[k] == (unsigned char)token[k]; k++) continue;
    return k == size;
}

#endif
