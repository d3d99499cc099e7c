// What the parts of the harness for include/uip_app.h share. main.c has how they work together. With BOTH it is the harness for
// include/uip_both.h: the same calls by their names there, and pages at port 80 (../both/pages.c), which alone.c leaves out.
#ifndef FUZZ_APP_H
#define FUZZ_APP_H

#include "../pages.h"
#ifdef BOTH
#include "uip_both.h"
#define CALL(name) uip_##name
typedef uip_device node_handle;
typedef tested opened;
enum { DEVICE_BLOCKS = 6 };
#else
#include "uip_app.h"
#define CALL(name) uip_app_##name
typedef uip_app node_handle;
typedef struct { node_handle handle; int is_open; } opened;
enum { DEVICE_BLOCKS = 3 };
#endif
#define NAMED_BY(call) #call
#define NAME_OF(call) NAMED_BY(call)
#define NAMED(name) NAME_OF(CALL(name))

// node.c: a second implementation of the node, its application and its link, from RFC 793 and docs/LIMITS.md.
// A connection: `una` is SND.UNA, `len` how many numbers after it are outstanding, and `age` for how many ticks, or for how many it rests.
// `text` is its message, or its page as far as that is fixed, of which `acked` bytes are acknowledged. A FIN follows it if `has_last`.
typedef struct {
    unsigned state, port, own_port, rcv, una, len, first_mss, mss, age, polls;
    byte peer[4], received[UIP_MAX_RECEIVED], message[UIP_MAX_MESSAGE];
    const byte *text;
    size_t received_len, text_len, acked;
    int is_overrun, has_last;
} connection;
// `ports` are those that listening opened, in their order. `datagram` is what the last call sent, in a frame or lost to an ARP request, and
// `arrived` the datagram that it received, or 0.
typedef struct {
    host host;
    connection slots[UIP_SLOTS];
    unsigned ports[UIP_MAX_PORTS], open_ports, calls, ident, again, no_slot;
    byte datagram[LARGEST];
    size_t datagram_len, arrived_len;
    const byte *arrived;
    secret secret;
    unsigned guard[3];    // by enum uip_guard_counter_id
    int is_used;    // a frame was received, or a slot was called: a secret would come too late
} node;
// Those with `sent` write the frame that is sent and return its length, or 0.
int node_listens(node *n, unsigned port);    // 1 if the port is open then
int node_protects(node *n, const byte *bytes);    // 0 if it comes too late
size_t node_receives(node *n, const byte *frame, size_t len, byte *sent);
size_t node_ticks(node *n, unsigned slot, byte *sent);
int node_can_write(const node *n, unsigned slot, size_t taken);
size_t node_writes(node *n, unsigned slot, size_t taken, const byte *text, size_t len, unsigned last, byte *sent);
uip_received node_reads(const node *n, unsigned slot);    // the bytes are those of the slot
uip_row node_row(const node *n, unsigned slot);
guard_view node_guard(const node *n);

// calls.c: single calls of a device, each as the node foretells it.
typedef struct { opened on; node node; size_t blocks; } device;    // `blocks` of the heap
typedef struct { byte bytes[UIP_MAX_FRAME]; size_t len; } sent_frame;    // what a call sent; no bytes if nothing
void calls_begin(void);
void call_open(device *d, const byte *own, const byte *mac, const byte *mask, const byte *router);
void call_close(device *d);
int call_listen(device *d, unsigned port);    // 1 if the port was opened, or was open
void call_secret(device *d);
void call_guard_counter(device *d);
void call_frame(device *d, const byte *frame, size_t len, size_t room, sent_frame *sent);
void call_tick(device *d, size_t slot, size_t room, sent_frame *sent);
uip_received call_read(device *d, size_t slot, size_t room, byte *bytes);
int call_write(device *d, size_t slot, size_t taken, const byte *text, size_t len, unsigned last, size_t room, sent_frame *sent);
void wrong_call(device *d);

// program.c: the program, which answers the connections of a device, and the devices that it has.
extern device devices[2];    // only the first has clients
unsigned some_port(void);    // of the ports of this session, mostly one that is open at the first device
int is_open_port(const device *d, unsigned port);    // by the calls that the program made
void listen_somewhere(device *d);                    // opens a port, or one that is open, or one more than can be open
void program_begin(void);
void program_end(void);
void receive_datagram(const byte *datagram, size_t len);    // in a frame, to the first device
void receive_noise(const byte *bytes, size_t len);          // in a frame of some type
void tick(unsigned slot);
void silence(unsigned ticks);
void pass_on(device *d, const sent_frame *sent, int is_reply);    // what a device sent goes to its peers

// peers.c: clients and strangers at the other end of a link with faults.
typedef struct client client;
void peers_begin(const byte *own);
void peers_act(void);
void peers_tick(void);
void peers_get(const byte *datagram, size_t len, int is_reply);                      // what the first device sent
void strangers_get(const byte *datagram, size_t len);
client *peer_of(const connection *c);                                                // 0 if it is no client, or was answered twice
void peer_was_read(client *c, const byte *bytes, size_t len);
void peer_was_written(client *c, size_t taken, const byte *text, size_t len, unsigned last);

// The pages at port 80 and their clients: ../both/pages.c, or alone.c, which has none. Of the first device alone.
enum { WEB_PORT = 80 };
int serves_pages(void);
void pages_judged(const node *n, judgement by_guard);        // what the guard did with what arrived
void pages_count(const node *n);                             // what passed it, before anything else
void page_opens(connection *c);                              // the connection is established
void page_receives(connection *c, const byte *bytes, size_t len);
void page_is_asked(connection *c);                           // fixes of its page what is due now
void pages_choose(void);                                     // a site
text pages_image(void);                                      // the image that is opened
void pages_open_badly(device *d, const byte *own, const byte *mac, const byte *mask, const byte *router);
void pages_begin(const byte *own);
void pages_act(void);                                        // one step of their clients, or of the link
void pages_tick(void);
int pages_peer(byte *address, unsigned *port);               // of a client that requests a page; 0 if there is none
int pages_whole_tick(void);                                  // makes one of ten slots, by the inline call; 0 if there is none
int pages_see(int is_lost);                                  // after a call that may send; 1 if what was sent is of a page
void pages_refuse(device *d);                                // a wrong call
void pages_show(void);

// What was counted beside `counts`.
extern struct app_counts {
    unsigned long written, not_ready, reads, taken, compared, again, overruns, resets, ends, silences, opened, listens, dropped, early;
} app_counts;

#endif
