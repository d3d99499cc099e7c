// The heap of the library (uip.h), over malloc. A block of 0 bytes has the size of its alignment.
#include <stdlib.h>
#include "uip.h"

static _Alignas(16) unsigned char nothing[16];
size_t heap_blocks;    // how many blocks are not freed

static uip_block block_at(void *block) {
    return block ? (uip_block){1, block} : (uip_block){0, nothing};
}

uip_block rattle_alloc(size_t len, size_t align) {
    uip_block block = block_at(malloc(len ? len : align));
    heap_blocks += block.ok;
    return block;
}

uip_block rattle_realloc(void *block, size_t kept, size_t len, size_t align) {
    (void)kept;
    return block_at(realloc(block, len ? len : align));
}

void rattle_dealloc(void *block) {
    free(block);
    heap_blocks--;
}
