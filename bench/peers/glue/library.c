// The functions of a C library that a peer calls and examples/board/runtime.c has not: small ones, for a firmware without a C library.
#include <stddef.h>

int memcmp(const void *one, const void *other, size_t len) {
    const unsigned char *a = one, *b = other;
    for (; len; len--, a++, b++)
        if (*a != *b) return *a - *b;
    return 0;
}

size_t strlen(const char *text) {
    size_t len = 0;
    while (text[len]) len++;
    return len;
}

int strncmp(const char *one, const char *other, size_t len) {
    for (; len && *one && *one == *other; len--) one++, other++;
    return len ? (unsigned char)*one - (unsigned char)*other : 0;
}

int strcmp(const char *one, const char *other) { return strncmp(one, other, (size_t)-1); }

char *strchr(const char *text, int byte) {
    for (; *text != (char)byte; text++)
        if (!*text) return NULL;
    return (char *)text;
}

int atoi(const char *text) {
    int value = 0;
    for (; *text >= '0' && *text <= '9'; text++) value = value * 10 + (*text - '0');
    return value;
}

void free(void *block) { (void)block; }                    // uIP's reset, which no one calls
