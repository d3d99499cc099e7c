// What the harness of uip.h and that of uip_both.h share: sites and their pages, the clients that request them, and the calls that send
// nothing.
#ifndef FUZZ_PAGES_H
#define FUZZ_PAGES_H

#include "parts.h"

enum { MOST_FILES = 1024, LONGEST_TEXT = 1 << 21, LONGEST_PAGE = 1 << 16, LONGEST_SPELLED = 6 * UIP_MAX_VALUE,
       LONGEST_REPORT = 1100 };

// sites.c: images, by docs/FORMATS.md.
typedef struct { byte name[64], kind[64]; unsigned name_len, kind_len; const byte *content; size_t len; } file;
typedef struct { byte *image; size_t len; unsigned count; file files[MOST_FILES]; int is_two; } site;
typedef struct { int others, values, many; } calls_of;                     // what the scripts of a site may call, and whether much
void make_site(site *s, const calls_of *has);
const file *file_named(const site *s, const byte *name, size_t len);
const byte *file_of_target(const byte *target, size_t *len);
const char *site_fault(const byte *image, size_t len, unsigned *entry);    // the word of the first fault, or 0
size_t some_name(const site *s, byte *to);                                 // mostly of a file that is asked for
size_t damage_image(byte *image, size_t len);                              // some bytes are others, or it is cut or longer; its length
// A piece of a script: its kind, the bytes that it names, where its words end, and where the next begins.
typedef struct { enum { TEXT, INCLUDE, CALL } kind; size_t from, to, end, next; } piece;
// A page as it is sent, as far as it is fixed: not beyond a call whose moment has not come.
typedef struct {
    const site *asked;
    const file *script;
    piece call;                         // the last one that is fixed, whose text begins at `call_at`, which is 0 where none is
    size_t at, len, call_at;
    int is_known, is_whole;
    size_t (*report)(int is_rows, byte *to);    // writes the text of `tcp-connections` or `net-stats`; 0 if that is not foretold
    byte bytes[LONGEST_PAGE];
} page;
void page_begin(page *p, const site *s, const byte *name, size_t name_len);
int value_has_changed(const page *p);
int page_goes_on(page *p);                                                 // 1: by a call
int page_waits(const page *p);                                             // what comes next is a call, whose text is of its moment

// values.c: the values that were given to all devices.
typedef struct { byte bytes[UIP_MAX_VALUE]; size_t len; } value;
void values_begin(void);
void values_given(unsigned number, const value *given);
value random_value(void);
size_t spell_value(const byte *argument, size_t argument_len, int spelling, byte *to);    // 0 as it is, 1 for JSON, 2 for HTML

// What uip_query returns, without padding, and whether a query may have a byte (reads.c).
typedef struct { size_t hit, len; byte bytes[UIP_MAX_QUERY]; } query;
int is_kept(byte b);

// requests.c: what is known of the connections at port 80 from what the node hears (0 for a tick) and sends.
// A request as it arrives: its first word, then its target, until it is decided.
enum { LONGEST_TARGET = 200 };
typedef struct { byte target[LONGEST_TARGET]; size_t len; enum { WORD, TARGET, DECIDED } stage; } request;
int request_takes(request *r, byte b);                                     // 1: this byte ended its target
const file *file_requested(const site *s, const request *r, size_t *mark); // by a whole target; 0 if there is none
void requests_begin(const site *s);
void requests_see(const byte *heard, size_t heard_len, const byte *sent, size_t sent_len);
void hits_settled(void);                                                   // all devices have heard the same
unsigned hits_foretold(const byte *name, size_t len);
unsigned least_hits(const byte *name, size_t len);                         // before what is being heard
query query_foretold(const byte *name, size_t len);
void row_is_foretold(unsigned slot, const uip_row *row);
void takes_silently(const held *c, size_t len);                            // bytes that no segment acknowledges yet
void numbers_are_known(held *c, int waits);                                // of a connection at port 80, from what was sent to its peer

// model.c: what a node counts of datagrams that come and go.
/* [add: counter] the length of the array */
typedef struct { unsigned numbers[21], guard[3], ticks; byte own[4]; } model;    // `guard` by enum uip_guard_counter_id
extern model counted;                                                      // of the devices in step, or of the first of two
void model_hears(model *m, const byte *datagram, size_t len);
void model_sends(model *m, const byte *datagram, size_t len);
void model_judged(model *m, judgement by_guard);                           // first: what the guard counts, and a RST for the node

// reads.c: the calls that send nothing, of a handle of uip.h, each as it is foretold. The image stays while the device is open.
typedef struct { uip_device handle; int is_open, has_left, is_ether, has_secret, is_used; byte mac[6], mask[4], router[4]; area image; } tested;
typedef struct { byte *bytes; size_t len; } text;
void reads_begin(void);
unsigned call_open_site(tested *t, const byte *image, size_t len, const byte *own);      // the status, as it was foretold
void call_close_site(tested *t);
void call_protect(tested *t, const byte *bytes);
void late_protect(tested *t);                                              // refused
void reads(tested *t, const model *least, const model *most);
unsigned numbers_of(tested *t, unsigned number);
void call_value(tested *t, unsigned long number, const byte *bytes, size_t len);
unsigned call_hits(tested *t, const byte *name, size_t len);
query call_query(tested *t, const byte *name, size_t len, size_t room);
int call_idle(tested *t);
uip_row call_row(tested *t, unsigned long slot);
void refused_words(tested *t);
void refused_counter(tested *t);

// clients.c: clients, honest and dishonest, behind a link that loses, repeats, reorders and damages. What they send goes to the devices.
void clients_begin(const site *s, const byte *own, int may_be_overlong);
void clients_act(void);                                  // one step of one of them, or of the link
void clients_tick(void);
int client_peer(byte *address, unsigned *port);          // of one that has a connection; 0 if there is none
void clients_end(void);
void heard_back(const byte *datagram, size_t len, int is_lost);            // what was sent, at times in no frame
void devices_hear(const byte *line, size_t len);         // bytes of the line
void devices_hear_datagram(const byte *datagram, size_t len);
void forge_one(void);                                    // a segment in the name of a connection's peer (forged.c)

#endif
