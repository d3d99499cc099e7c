// What the harness of uip.h and that of uip_app.h share.
#ifndef FUZZ_PARTS_H
#define FUZZ_PARTS_H

#include "uip.h"

typedef unsigned char byte;

enum { LARGEST = UIP_MAX_DATAGRAM };

// random.c: numbers that follow from a seed alone.
void random_begin(unsigned long seed);
unsigned long random_next(void);
unsigned below(unsigned count);                       // 0 to count - 1, evenly
unsigned between(unsigned least, unsigned most);
int chance(unsigned percent);
void random_bytes(byte *to, size_t len);

// report.c: what was found, and what was counted.
_Noreturn void fail(const char *format, ...) __attribute__((format(printf, 1, 2)));
#define WANT(is_so, ...) do { if (!(is_so)) fail(__VA_ARGS__); } while (0)
extern struct counts {
    unsigned long calls, others, refused, opens, bad_images, refusals, sessions, pages, whole, datagrams, pings;
    unsigned long given, shown, changed, hits, rows, queries, framed, routed, taught, dropped, gave_up;
} counts;
void report_begin(unsigned long seed, int is_mixed);
void report_end(void);
double seconds_gone(void);

// areas.c: areas that end at a page which cannot be touched; an input is read-only where the library sees it.
typedef struct { byte *writable, *seen; size_t len; } area;
area area_new(size_t len, int is_input);
const byte *put_input(const area *in, const byte *bytes, size_t len);    // the bytes, at the end of the area
byte *take_room(const area *out, size_t room);                           // the last bytes of an area for output

// heap.c: the heap of the library. Each block ends at such a page, and what is given back is gone.
extern size_t heap_blocks, heap_calls;     // blocks that are not given back; calls of the heap
extern unsigned heap_refuses;              // 0, or which allocation from now on is refused
extern int heap_refused;                   // whether one was
void heap_check(void);                     // the bytes around the blocks are as they were

// wire.c: datagrams by RFC 791, 792 and 793, and the line by RFC 1055.
typedef struct {
    byte source[4], target[4];
    unsigned from, to, seq, ack, flags, window, mss;
    const byte *text;
    size_t len;
} segment;
enum { FIN = 1, SYN = 2, RST = 4, PSH = 8, ACK = 16 };
unsigned sum_of(const byte *bytes, size_t len, unsigned before);         // the one's complement sum, 16 bits
size_t write_segment(byte *to, const segment *s);
size_t write_ping(byte *to, const byte *source, const byte *target, size_t len);
void repair_sums(byte *datagram, size_t len);
int read_segment(const byte *datagram, size_t len, segment *s);          // 1 where it is a sound TCP datagram
int is_sound_reply(const byte *datagram, size_t len);                    // 1 where it is a sound echo reply
size_t write_frame(byte *to, const byte *datagram, size_t len);
typedef struct { byte bytes[LARGEST]; size_t len; int is_escaped, is_over; } decoder;
int decode(decoder *d, byte b);            // 1: its bytes are a frame, and -1: an overlong frame ended; then the caller empties it

// link.c: a link that loses, repeats, reorders and damages.
enum { QUEUE = 64 };
typedef struct { byte bytes[LARGEST]; size_t len; } packet;
typedef struct { packet packets[QUEUE]; unsigned count; } queue;
void enqueue(queue *q, const byte *bytes, size_t len);
size_t dequeue(queue *q, byte *to);

// arp.c: a host on Ethernet, what it knows by ARP, and the frames that it sends.
enum { ETHER_HEAD = 14, ARP_LEN = 42, LONGEST_FRAME = ETHER_HEAD + LARGEST, LEARNED = 64 };
// The last learning of an address: what it taught, and the numbers of learnings and ticks up to then.
typedef struct { byte address[4], mac[6]; unsigned long at, tick; int is_used; } learning;
typedef struct { byte own[4], mac[6], mask[4], router[4]; learning learned[LEARNED]; unsigned long learnings, ticks; } host;
extern const byte everyone[6];
void host_begin(host *h, const byte *own, const byte *mac, const byte *mask, const byte *router);
void choose_network(const byte *own, byte *mask, byte *router);
void learn(host *h, const byte *address, const byte *mac);
const byte *known(const host *h, const byte *address);
const byte *hop_to(const host *h, const byte *target);
size_t frame_for(const host *h, byte *to, const byte *datagram, size_t len);
size_t write_ether(byte *to, const byte *target, const byte *source, unsigned type);
size_t write_arp(byte *to, const byte *target, unsigned operation, const byte *sender_mac, const byte *sender, const byte *mac,
                 const byte *address);
void mac_of(byte *to, const byte *address);

// model.c: the counter of the check that a datagram fails at an address, or 0.
unsigned fault_of(const byte *own, const byte *datagram, size_t len);

// guard.c: the guard of a node. What it sees of a connection, in the numbers of the wire: RCV.NXT, SND.UNA and how many numbers after it are
// outstanding, and the count and the tries of its row.
typedef struct { int is_set; byte bytes[16]; } secret;
typedef struct { unsigned state, port, own_port, rcv, una, out, count, tries; byte peer[4]; } held;
typedef struct { secret secret; byte own[4]; int has_pages; int (*is_served)(unsigned port); held slots[UIP_SLOTS]; } guard_view;
typedef struct { enum { PASSES, DROPS, GIVES_UP } what; unsigned slot; } judgement;
judgement judge(const guard_view *g, const byte *datagram, size_t len);
const held *held_by(const guard_view *g, const segment *s);                 // the connection of a segment, or 0
size_t forge(const guard_view *g, byte *to);       // forged.c: a segment in the name of a peer, which changes no connection; or 0
unsigned shift_of(const secret *k, const byte *own, const byte *peer, unsigned port, unsigned own_port);

#endif
