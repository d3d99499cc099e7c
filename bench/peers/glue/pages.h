// What the glue of uIP and of lwIP shares: the site's image, which is read in place (docs/FORMATS.md has its format), and texts of pages.
#ifndef PAGES_H
#define PAGES_H
#include <stdint.h>
#include <string.h>

enum { FILES = 17 };                                       // at most: those of bench/lines/site.img.xz
extern const unsigned char site_image[];

typedef struct {
    const char *name;
    const unsigned char *data;
    uint32_t len;
    unsigned char name_len;
} page_file;

// The file of this number. Returns 0 if the site has fewer.
static int file_at(int number, page_file *file) {
    const unsigned char *at = site_image + 8;
    if (number < 0 || number >= (at[0] << 8 | at[1])) return 0;
    for (at += 2;; at = file->data + file->len) {
        file->name_len = at[0];
        file->name = (const char *)at + 1;
        at += 1 + file->name_len;
        file->len = (uint32_t)at[0] << 24 | (uint32_t)at[1] << 16 | (uint32_t)at[2] << 8 | at[3];
        file->data = at + 4;
        if (number-- == 0) return 1;
    }
}

// The number of the file with this name, or -1.
static int find_file(const char *name, size_t len, page_file *file) {
    for (int number = 0; file_at(number, file); number++)
        if (file->name_len == len && !memcmp(file->name, name, len)) return number;
    return -1;
}

static int ends_with(const page_file *file, const char *end) {
    size_t len = strlen(end);
    return file->name_len >= len && !memcmp(file->name + file->name_len - len, end, len);
}

static char *put_text(char *to, const char *text) {
    size_t len = strlen(text);
    memcpy(to, text, len);
    return to + len;
}

// A decimal number, with blanks before it.
static char *put_number(char *to, uint32_t value, int width) {
    char digits[10];
    int count = 0;
    do digits[count++] = (char)('0' + value % 10);
    while (value /= 10);
    for (; width > count; width--) *to++ = ' ';
    while (count) *to++ = digits[--count];
    return to;
}

// A row of the table of connections: slot, peer, state, how often the last segment was retransmitted, its timer, and whether it is under
// way.
typedef struct {
    unsigned slot, port, retransmitted, timer;
    const unsigned char *address;
    const char *state;
    int is_under_way;
} page_row;

static char *put_row(char *to, const page_row *row) {
    static const char between[] = "</td><td>";
    to = put_text(put_number(put_text(to, "<tr><td>"), row->slot, 1), between);
    for (int k = 0; k < 4; k++) {
        to = put_number(to, row->address[k], 1);
        *to++ = ".:"[k == 3];
    }
    to = put_text(put_number(to, row->port, 1), between);
    to = put_text(put_text(to, row->state), between);
    to = put_text(put_number(to, row->retransmitted, 1), between);
    to = put_text(put_number(to, row->timer, 1), between);
    *to++ = " *"[row->is_under_way != 0];
    return put_text(to, "</td></tr>\r\n");
}

enum { ROW_MOST = 110 };                                   // bytes of a row, at most

#endif
