// A link that loses, repeats, reorders and damages datagrams.
#include <string.h>
#include "parts.h"

void enqueue(queue *q, const byte *bytes, size_t len) {
    if (q->count == QUEUE) return;    // lost
    memcpy(q->packets[q->count].bytes, bytes, len);
    q->packets[q->count++].len = len;
}

// Takes a packet out, mostly the oldest; it may be lost, stay to come again, or be damaged in one byte. Gives its length, 0 where none is.
size_t dequeue(queue *q, byte *to) {
    if (q->count == 0) return 0;
    unsigned at = chance(85) ? 0 : below(q->count);
    size_t len = q->packets[at].len;
    memcpy(to, q->packets[at].bytes, len);
    if (!chance(4)) {
        memmove(q->packets + at, q->packets + at + 1, (q->count - at - 1) * sizeof(packet));
        q->count--;
    }
    if (chance(4)) return 0;
    if (chance(3)) to[below((unsigned)len)] ^= (byte)between(1, 255);
    return len;
}
