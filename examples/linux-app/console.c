// A console: `set NUMBER`, `get` and `quit`. Each line has one reply. It needs no C library, so a firmware can have it too.
#include "uip_app.h"

size_t answer_line(char *line, char *reply, unsigned *last);

static int level;

// Returns what follows a word at the start of a line, or 0 if the line does not begin with it.
static const char *after(const char *line, const char *word) {
    while (*word && *line == *word) line++, word++;
    return *word ? 0 : line;
}

static int is_same(const char *line, const char *word) {
    const char *rest = after(line, word);
    return rest && !*rest;
}

// Reads a number of at most nine digits. Returns whether there is one and nothing else.
static int read_number(const char *text, int *number) {
    int is_negative = *text == '-', digits = 0, value = 0;
    for (text += is_negative; *text >= '0' && *text <= '9' && digits < 9; digits++) value = 10 * value + (*text++ - '0');
    if (!digits || *text) return 0;
    *number = is_negative ? -value : value;
    return 1;
}

// These two return the end of what they wrote.
static char *put_text(char *to, const char *text) {
    while (*text) *to++ = *text++;
    return to;
}

static char *put_number(char *to, int number) {
    char digits[12], *at = digits + sizeof digits;
    unsigned left = number < 0 ? 0u - (unsigned)number : (unsigned)number;
    *--at = 0;
    do *--at = (char)('0' + left % 10); while (left /= 10);
    if (number < 0) *--at = '-';
    return put_text(to, at);
}

// Writes the reply to a line without its line feed, at most UIP_MAX_MESSAGE bytes. `last` becomes 1 if the connection closes after it.
size_t answer_line(char *line, char *reply, unsigned *last) {
    char *end = line;
    const char *number = after(line, "set ");
    while (*end && *end != '\r') end++;
    *end = 0;
    if (is_same(line, "get")) end = put_number(reply, level);
    else if (number && read_number(number, &level)) end = put_number(put_text(reply, "ok "), level);
    else if (is_same(line, "quit")) {
        end = put_text(reply, "bye");
        *last = 1;
    } else end = put_text(put_text(reply, "? "), line);
    *end++ = '\n';
    return (size_t)(end - reply);
}
