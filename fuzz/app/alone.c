// No pages: include/uip_app.h has no web server. What asks for a page is not reached.
#include "app.h"

int serves_pages(void) { return 0; }

void pages_judged(const node *n, judgement by_guard) { (void)n, (void)by_guard; }

void pages_count(const node *n) { (void)n; }

void page_opens(connection *c) { (void)c; }

void page_receives(connection *c, const byte *bytes, size_t len) { (void)c, (void)bytes, (void)len; }

void page_is_asked(connection *c) { (void)c; }

void pages_choose(void) {}

text pages_image(void) { return (text){0}; }

void pages_open_badly(device *d, const byte *own, const byte *mac, const byte *mask, const byte *router) {
    (void)d, (void)own, (void)mac, (void)mask, (void)router;
}

void pages_begin(const byte *own) { (void)own; }

void pages_act(void) {}

void pages_tick(void) {}

int pages_peer(byte *address, unsigned *port) { return (void)address, (void)port, 0; }

int pages_whole_tick(void) { return 0; }

int pages_see(int is_lost) { return is_lost & 0; }

void pages_refuse(device *d) { (void)d; }

void pages_show(void) {}
