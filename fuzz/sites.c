// Images of sites, good and bad, and the pages of their files, by docs/FORMATS.md.
#include <stdio.h>
#include <string.h>
#include "pages.h"

static int is_script(const byte *name, size_t len) { return len >= 6 && !memcmp(name + len - 6, ".shtml", 6); }

static int same(const byte *one, size_t one_len, const byte *other, size_t other_len) {
    return one_len == other_len && !memcmp(one, other, one_len);
}

const file *file_named(const site *s, const byte *name, size_t len) {
    for (unsigned k = 0; k < s->count; k++) if (same(s->files[k].name, s->files[k].name_len, name, len)) return &s->files[k];
    return 0;
}

// The name of the file that a target means.
const byte *file_of_target(const byte *target, size_t *len) {
    if (!same(target, *len, (const byte *)"/", 1)) return target;
    *len = 11;
    return (const byte *)"/index.html";
}

// The next word of a part of a script, from `at` on.
static size_t word(const byte *text, size_t *at, size_t end) {
    while (*at < end && text[*at] == ' ') ++*at;
    size_t from = *at;
    while (*at < end && text[*at] != ' ') ++*at;
    return from;
}

// The piece of a script from `at` on.
static piece piece_at(const byte *text, size_t at, size_t len) {
    size_t end = at;
    if (!(at + 1 < len && text[at] == '%' && text[at + 1] == '!')) {
        while (end < len && !(end + 1 < len && text[end] == '%' && text[end + 1] == '!')) end++;
        return (piece){TEXT, at, end, end, end};
    }
    at += 2;
    while (end < len && text[end] != '\n') end++;
    size_t next = end < len ? end + 1 : len;
    if (end > at && text[end - 1] == '\r') end--;
    int is_include = end > at && text[at] == ':';
    if (is_include) at++;
    size_t from = word(text, &at, end);
    return (piece){is_include ? INCLUDE : CALL, from, at, end, next};
}

static int is_word(const byte *name, size_t len, const char *words) { return same(name, len, (const byte *)words, strlen(words)); }

// Puts together what is written to a room, as far as there is room.
typedef struct { byte *to; size_t len, most; } writer;

static void add(writer *w, const void *bytes, size_t len) {
    if (w->len + len <= w->most) memcpy(w->to + w->len, bytes, len);
    w->len += len;
}

static void add_text(writer *w, const char *words) { add(w, words, strlen(words)); }

static void add_kind(writer *w, const file *f) {
    static const char *const kinds[][2] = {{".html", "text/html"}, {".shtml", "text/html"}, {".txt", "text/plain"}, {".css", "text/css"},
        {".png", "image/png"}, {".gif", "image/gif"}, {".jpg", "image/jpeg"}};
    if (f && f->kind_len) { add(w, f->kind, f->kind_len); return; }
    for (unsigned k = 0; f && k < sizeof kinds / sizeof *kinds; k++) {
        size_t len = strlen(kinds[k][0]);
        if (f->name_len >= len && !memcmp(f->name + f->name_len - len, kinds[k][0], len)) { add_text(w, kinds[k][1]); return; }
    }
    add_text(w, f ? "application/octet-stream" : "text/html");
}

// [add: function] the text that is foretold for a call
// The text of a call as it is at this moment, by the values and the hits; 0 where it is not foretold.
static int add_call(writer *w, const page *p, const piece *is) {
    const byte *script = p->script->content;
    size_t len = is->to - is->from, at = is->to, from = word(script, &at, is->end), argument_len = at - from;
    const byte *name = script + is->from, *argument = script + from;
    static const char *const spellings[] = {"value", "value-json", "value-html"};
    char number[16] = "";
    for (int k = 0; k < 3; k++) {
        byte spelled[LONGEST_SPELLED];
        if (is_word(name, len, spellings[k])) add(w, spelled, spell_value(argument, argument_len, k, spelled));
    }
    if (is_word(name, len, "ticks")) snprintf(number, sizeof number, "%10u", counted.ticks);
    if (is_word(name, len, "file-stats")) snprintf(number, sizeof number, "%10u", hits_foretold(argument, argument_len));
    add_text(w, number);
    int is_rows = is_word(name, len, "tcp-connections");
    if (!is_rows && !is_word(name, len, "net-stats")) return 1;
    byte report[LONGEST_REPORT];
    if (p->report) add(w, report, p->report(is_rows, report));
    return p->report != 0;
}

// What is fixed of a page at once: all but the body of a script.
void page_begin(page *p, const site *s, const byte *name, size_t name_len) {
    writer w = {p->bytes, 0, sizeof p->bytes};
    name = file_of_target(name, &name_len);
    const file *f = file_named(s, name, name_len), *shown = f ? f : file_named(s, (const byte *)"/404.html", 9);
    add_text(&w, f ? "HTTP/1.0 200 OK\r\n" : "HTTP/1.0 404 Not found\r\n");
    add_text(&w, "Server: uIP/1.0\r\nConnection: close\r\nContent-type: ");
    add_kind(&w, f);
    add_text(&w, "\r\n\r\n");
    p->asked = s, p->at = p->call_at = 0, p->is_known = 1, p->report = 0;
    p->script = shown && is_script(shown->name, shown->name_len) ? shown : 0;
    if (!shown) add_text(&w, "not found\n");
    else if (!p->script) add(&w, shown->content, shown->len);
    p->len = w.len, p->is_whole = !p->script;
    if (p->len > w.most) p->is_known = 0;
}

// Whether the last call that was fixed is of a value, which is another by now.
int value_has_changed(const page *p) {
    byte now[LONGEST_SPELLED];
    writer w = {now, 0, sizeof now};
    const byte *script = p->script->content;
    if (p->call.to - p->call.from < 5 || memcmp(script + p->call.from, "value", 5)) return 0;
    (void)add_call(&w, p, &p->call);
    size_t len = w.len, left = p->len - p->call_at;
    return len > left || memcmp(now, p->bytes + p->call_at, len);
}

// Whether the next piece of the script is a call that takes a record: its text is that of the moment at which it is due.
int page_waits(const page *p) {
    static const char *const functions[] = {"value", "value-json", "value-html", "ticks", "file-stats", "net-stats", "tcp-connections"};
    if (p->is_whole || !p->script || p->at >= p->script->len) return 0;
    piece is = piece_at(p->script->content, p->at, p->script->len);
    int is_function = 0;
    for (unsigned k = 0; k < 7; k++) is_function |= is_word(p->script->content + is.from, is.to - is.from, functions[k]);
    return is.kind == CALL && is_function;
}

// One more piece of the script, as it is at this moment. Gives whether it is a call, whose text begins with a segment.
int page_goes_on(page *p) {
    const file *f = p->script;
    if (p->at >= f->len) { p->is_whole = 1; return 0; }
    writer w = {p->bytes, p->len, sizeof p->bytes};
    piece is = piece_at(f->content, p->at, f->len);
    p->at = is.next;
    if (is.kind == TEXT) add(&w, f->content + is.from, is.to - is.from);
    if (is.kind == CALL) p->call = is, p->call_at = p->len, p->is_known = add_call(&w, p, &is);
    const file *included = is.kind == INCLUDE ? file_named(p->asked, f->content + is.from, is.to - is.from) : 0;
    if (included) add(&w, included->content, included->len);
    p->len = w.len;
    if (p->len > w.most) p->is_known = 0;
    return is.kind == CALL;
}

// What is left of an image to read.
typedef struct { const byte *at; size_t len; } rest;

static const char *text_fault(rest *r, unsigned least, unsigned most, byte lowest, const char *why, byte *to, unsigned *to_len) {
    if (r->len == 0) return "cut";
    unsigned len = r->at[0];
    if (len < least || len > most) return why;
    if (r->len < len + 1) return "cut";
    if (least && r->at[1] != '/') return why;
    for (unsigned k = 1; k <= len; k++) if (r->at[k] < lowest || r->at[k] > 0x7e || (least && r->at[k] == '?')) return why;
    memcpy(to, r->at + 1, len);
    *to_len = len;
    r->at += len + 1, r->len -= len + 1;
    return 0;
}

static const char *entry_fault(rest *r, site *s) {
    file *f = &s->files[s->count];
    const char *why = text_fault(r, 1, 64, 0x21, "name", f->name, &f->name_len);
    if (why) return why;
    if (file_named(s, f->name, f->name_len)) return "twice";
    f->kind_len = 0;
    if (s->is_two && (why = text_fault(r, 0, 64, 0x20, "kind", f->kind, &f->kind_len))) return why;
    if (r->len < 4) return "cut";
    f->len = (size_t)r->at[0] << 24 | (size_t)r->at[1] << 16 | (size_t)r->at[2] << 8 | r->at[3];
    f->content = r->at + 4;
    if (r->len - 4 < f->len) return "cut";
    r->at += 4 + f->len, r->len -= 4 + f->len;
    s->count++;
    return 0;
}

static const char *script_fault(const site *s, const file *f) {
    size_t long_page = 0;
    if (!is_script(f->name, f->name_len)) return 0;
    for (size_t at = 0; at < f->len;) {
        piece p = piece_at(f->content, at, f->len);
        at = p.next;
        if (p.kind == INCLUDE) {
            const file *included = file_named(s, f->content + p.from, p.to - p.from);
            if (!included) return "include";
            long_page += included->len;
        }
    }
    return long_page >= 1ul << 29 ? "page" : 0;    // no image here comes near the limit of 2^30
}

const char *site_fault(const byte *image, size_t len, unsigned *entry) {
    static site read;
    rest r = {image, len};
    *entry = 0;
    if (len > 16777216) return "long";
    if (len < 8 || memcmp(image, "UIPSITE", 7) || (image[7] != '1' && image[7] != '2')) return "magic";
    if (len < 10) return "cut";
    unsigned count = (unsigned)image[8] << 8 | image[9];
    if (count > MOST_FILES) return "many";
    read.is_two = image[7] == '2', read.count = 0, r.at += 10, r.len -= 10;
    for (unsigned k = 0; k < count; k++) {
        const char *why = entry_fault(&r, &read);
        *entry = k + 1;
        if (why) return why;
    }
    *entry = 0;
    if (r.len) return "rest";
    for (unsigned k = 0; k < count; k++) {
        const char *why = script_fault(&read, &read.files[k]);
        *entry = k + 1;
        if (why) return why;
    }
    return 0;
}

// A name of a file that is mostly asked for; at times a byte longer or shorter, so of no file, or of another.
size_t some_name(const site *s, byte *to) {
    if (s->count == 0) return 0;
    const file *f = &s->files[below(s->count < 12 ? s->count : 12)];
    memcpy(to, f->name, f->name_len);
    if (!chance(10)) return f->name_len;
    to[f->name_len] = (byte)random_next();
    return f->name_len - 1 + 2 * below(2);
}

// An image of which some bytes are others, or which is cut or longer; gives its length.
size_t damage_image(byte *image, size_t len) {
    if (chance(40)) return below((unsigned)len + 1);
    for (unsigned k = between(1, 3); k; k--) {
        size_t front = len < 80 || chance(30) ? len : 80;
        image[below((unsigned)front)] = (byte)random_next();
    }
    if (chance(80)) return len;
    random_bytes(image + len, 3);
    return len + between(1, 3);
}

// A call of a value, mostly by a number that there is.
static void add_value_call(writer *w) {
    static const char *const spellings[] = {"value", "value-json", "value-html"};
    static const char *const none[] = {"16", "007", "+1", "-1", "", "1x", "99999999999999999999", "0x3", "15.", "\xff"};
    char call[64];
    if (chance(85)) snprintf(call, sizeof call, "%%! %s  %u%s\n", spellings[below(3)], below(UIP_VALUES), chance(20) ? " 7 more\r" : "");
    else snprintf(call, sizeof call, "%%! %s %s\n", spellings[below(3)], none[below(10)]);
    add_text(w, call);
}

// The text of a random script: text, includes of files that are there, and calls. Between a value and the next call stands a text: where
// a value is empty, the moment of a call that follows at once cannot be seen.
static void add_script(writer *w, const site *s, const calls_of *has) {
    static const char *const calls[] = {"%! tcp-connections\n", "%! net-stats\r\n", "%! ticks \n", "%! file-stats /f0.html\n",
        "%! ticks\n", "%! file-stats /index.html\n"};
    int was_value = 0;
    for (unsigned parts = has->many ? between(2, 9) : below(8); parts; parts--) {
        byte run[600];
        unsigned kind = below(has->values ? 8 : has->others ? 5 : 4);
        size_t len = below(chance(20) ? 600 : 60);
        if (was_value && len == 0) len = 1;
        was_value = kind > 4;
        for (size_t at = 0; at < len; at++) run[at] = (byte)between(' ', '~');
        for (size_t at = 0; at < len; at++) if (run[at] == '!') run[at] = '%';
        add(w, run, len);
        if (kind == 1 && s->count) {
            const file *f = &s->files[below(s->count)];
            add_text(w, "%!: "), add(w, f->name, f->name_len), add_text(w, chance(50) ? " more\n" : "\r\n");
        }
        if (kind == 2) add_text(w, "%! unknown /a\n");
        if (kind == 4) add_text(w, calls[has->others && chance(50) ? below(has->many ? 2 : 6) : between(2, 5)]);
        if (kind > 4) add_value_call(w);
    }
}

static void add_file(writer *w, site *s, const calls_of *has, int is_small) {
    static const char *const ends[] = {".html", ".shtml", ".txt", ".css", ".png", "", ".gif", ".jpg", ".shtm", ".shtml"};
    file *f = &s->files[s->count];
    unsigned k = s->count, own = s->is_two && chance(50) ? below(65) : 0;
    f->name_len = (unsigned)snprintf((char *)f->name, sizeof f->name, k == 3 ? "/404.html" : "/f%u%s", k, k ? ends[below(10)] : ".html");
    int may_be_script = k && (has->values || has->many);
    if (may_be_script && chance(has->many ? 70 : 30)) f->name_len = (unsigned)snprintf((char *)f->name, sizeof f->name, "/f%u.shtml", k);
    if (k == 1) f->name_len = (unsigned)snprintf((char *)f->name, sizeof f->name, "/index.html");
    f->kind_len = own;
    for (unsigned at = 0; at < own; at++) f->kind[at] = (byte)between(' ', '~');
    add(w, (byte[]){(byte)f->name_len}, 1), add(w, f->name, f->name_len);
    if (s->is_two) add(w, (byte[]){(byte)own}, 1), add(w, f->kind, own);
    size_t place = w->len;
    add(w, "\0\0\0\0", 4);
    if (is_script(f->name, f->name_len)) add_script(w, s, has);
    else {
        size_t len = is_small ? below(20) : below(chance(20) ? 6000 : 300);
        for (; len; len--) add(w, (byte[]){(byte)random_next()}, 1);
    }
    f->content = w->to + place + 4, f->len = w->len - place - 4;
    for (unsigned at = 0; at < 4; at++) w->to[place + at] = (byte)(f->len >> (24 - 8 * at));
    s->count++;
}

void make_site(site *s, const calls_of *has) {
    static byte room[1 << 20];
    unsigned count = chance(3) ? between(0, MOST_FILES) : chance(10) ? 0 : between(1, 12);
    writer w = {room, 0, sizeof room};
    s->is_two = chance(50), s->count = 0;
    add_text(&w, s->is_two ? "UIPSITE2" : "UIPSITE1");
    add(&w, (byte[]){(byte)(count >> 8), (byte)count}, 2);
    for (unsigned k = 0; k < count; k++) add_file(&w, s, has, count > 20);
    WANT(w.len <= w.most, "the harness made a site without room");
    s->image = room, s->len = w.len;
}
