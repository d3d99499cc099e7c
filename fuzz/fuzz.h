// What the parts of the harness for include/uip.h share. main.c says how they work together.
#ifndef FUZZ_H
#define FUZZ_H

#include "pages.h"

// devices.c: three devices in step, and a fourth. Each gives what was sent to `heard_back`, a datagram at a time.
typedef struct { int is_mixed, may_be_overlong; unsigned pace; } way;
void devices_open(const site *s, const byte *own, const way *how);
void devices_tick(unsigned slot);
void devices_close(void);
void record_begin(const char *folder, const site *s, const byte *own, unsigned pace);
void record_end(void);

// calls.c: single calls of the device under test that send, fine and refused, each as it was foretold.
uip_result call_hear(tested *t, const byte *bytes, size_t len, size_t room, text *to);
uip_result call_slot(tested *t, unsigned slot, size_t room, text *to);
uip_result call_more(tested *t, size_t room, text *to);
uip_result call_datagram(tested *t, const byte *datagram, size_t len, text *to);
uip_result call_slot_datagram(tested *t, unsigned slot, text *to);
uip_result call_frame(tested *t, const byte *frame, size_t len, text *to);
uip_result call_slot_frame(tested *t, unsigned slot, text *to);
void refused_calls(tested *t);
void calls_begin(void);

// reads.c: how a call begins and ends.
typedef enum { ANY, A_LINE, AN_IDLE_LINE, ETHER } link_of;
byte *begin_call(const tested *t, size_t room);                            // an area for output, which is filled
void begins_with(byte *out, const byte *bytes, size_t len, size_t room);   // the area begins with these
unsigned foretold(const tested *t, int is_bad, link_of link);              // the status
void heap_was_not_called(const char *what);
void is_untouched(const tested *t, const byte *out, size_t room, const char *what);

// frames.c: the fourth device, which gets the same datagrams in Ethernet frames. `reply` is what the device by datagrams sent.
void frames_open(const site *s, const byte *own);
void frames_hear(const byte *datagram, size_t len, const byte *reply, size_t reply_len);
void frames_tick(unsigned slot, const byte *datagram, size_t len);
void frames_give(unsigned number, const value *given);
void frames_read(tested *other, const byte *name, size_t len);
void frames_protect(const byte *secret);
void frames_close(void);

#endif
