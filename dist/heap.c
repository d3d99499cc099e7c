// A heap over one array, for a program that has no other heap. Blocks are allocated in ascending order. When all are freed, the whole
// array is free again. UIP_HEAP_SIZE is the size of the array: UIP_MEMORY (uip.h) for each device that is open at the same time. It is for
// one thread. The language is C11 or C++11.
#include "uip.h"

#ifndef UIP_HEAP_SIZE
#define UIP_HEAP_SIZE UIP_MEMORY(64)
#endif

#ifdef __cplusplus
alignas(16)
#else
_Alignas(16)
#endif
static unsigned char heap_area[UIP_HEAP_SIZE];
size_t heap_used;      // the offset after the last block
size_t heap_blocks;    // how many blocks are not freed

static uip_block heap_block(size_t ok, void *at) {
    uip_block block = {ok, at};
    return block;
}

uip_block rattle_alloc(size_t len, size_t align) {
    size_t at = (heap_used + align - 1) & ~(align - 1);
    if (len == 0) len = align;
    if (at > sizeof heap_area || len > sizeof heap_area - at) return heap_block(0, heap_area);
    heap_used = at + len;
    heap_blocks++;
    return heap_block(1, heap_area + at);
}

uip_block rattle_realloc(void *block, size_t kept, size_t len, size_t align) {
    (void)block, (void)kept, (void)len, (void)align;
    return heap_block(0, heap_area);
}

void rattle_dealloc(void *block) {
    (void)block;
    if (--heap_blocks == 0) heap_used = 0;
}
