// The heap of the library. Each block lies on pages of its own and ends at one that cannot be touched, but for what its alignment
// leaves, which is filled and looked at; a block that is given back is not mapped any more. An allocation can be refused.
#include <string.h>
#include <sys/mman.h>
#include "parts.h"

enum { PAGE = 4096, MOST_BLOCKS = 64, FILLED = 0xa7 };

static struct { byte *at; size_t len, mapped, behind; } blocks[MOST_BLOCKS];
size_t heap_blocks, heap_calls;
unsigned heap_refuses;
int heap_refused;

uip_block rattle_alloc(size_t len, size_t align) {
    heap_calls++;
    WANT(align == 1 || align == 2 || align == 4 || align == 8 || align == 16, "a block at a multiple of %zu is asked for", align);
    if (heap_refuses && --heap_refuses == 0) {
        heap_refused = 1;
        return (uip_block){0, (void *)0x10};
    }
    if (len == 0) len = align;
    size_t pages = (len + align + PAGE - 1) / PAGE * PAGE, behind = (align - len % align) % align;
    byte *from = mmap(0, pages + PAGE, PROT_READ | PROT_WRITE, MAP_PRIVATE | MAP_ANONYMOUS, -1, 0);
    WANT(from != MAP_FAILED && mprotect(from + pages, PAGE, PROT_NONE) == 0, "no memory for the harness");
    for (unsigned k = 0; k < MOST_BLOCKS; k++) {
        if (blocks[k].at) continue;
        byte *at = from + pages - behind - len;
        memset(from, FILLED, pages);
        random_bytes(at, len < 64 ? len : 64);
        blocks[k].at = at, blocks[k].len = len, blocks[k].mapped = pages, blocks[k].behind = behind;
        heap_blocks++;
        return (uip_block){1, at};
    }
    fail("more than %d blocks are taken", MOST_BLOCKS);
}

uip_block rattle_realloc(void *block, size_t kept, size_t len, size_t align) {
    (void)block, (void)kept, (void)len, (void)align;
    fail("rattle_realloc was called");
}

// The bytes around a block: behind it up to the page, and before it.
static void check_block(unsigned k) {
    byte *end = blocks[k].at + blocks[k].len, *from = end + blocks[k].behind - blocks[k].mapped;
    for (size_t at = 0; at < blocks[k].behind; at++) WANT(end[at] == FILLED, "a byte behind a block was written");
    for (byte *at = from; at < blocks[k].at && at < from + 256; at++) WANT(*at == FILLED, "a byte before a block was written");
    for (byte *at = blocks[k].at - 1; at >= from && at > blocks[k].at - 256; at--) WANT(*at == FILLED, "a byte before a block was written");
}

void heap_check(void) {
    for (unsigned k = 0; k < MOST_BLOCKS; k++) if (blocks[k].at) check_block(k);
}

void rattle_dealloc(void *block) {
    heap_calls++;
    for (unsigned k = 0; k < MOST_BLOCKS; k++) {
        if (!block || blocks[k].at != block) continue;
        check_block(k);
        munmap(blocks[k].at + blocks[k].len + blocks[k].behind - blocks[k].mapped, blocks[k].mapped + PAGE);
        blocks[k].at = 0;
        heap_blocks--;
        return;
    }
    fail("a block is given back that was not taken");
}
