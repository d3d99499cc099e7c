// What node.wasm has besides the calls of uip.h: areas for the image, for input and for output, and the heap. The heap begins after the
// image, and the memory grows as needed. One instance has one device, or none.
#include "uip.h"

#define EXPORT __attribute__((visibility("default"), used))
enum { IN = 16384, PAGE = 65536, LARGEST = 1 << 30 };

EXPORT uip_device device = UIP_INIT;
EXPORT unsigned char in[IN], out[UIP_MAX_OUT], own[4], result[32] __attribute__((aligned(8)));
extern unsigned char __heap_base;
static size_t heap_start, heap_end, blocks;

// Makes the memory reach to an address, and returns whether it does.
static int memory_reaches(size_t to) {
    size_t has = __builtin_wasm_memory_size(0);
    return to <= has * PAGE || __builtin_wasm_memory_grow(0, (to - has * PAGE + PAGE - 1) / PAGE) != (size_t)-1;
}

// Returns where an image of `len` bytes goes, or 0. Call it only while there is no device.
EXPORT unsigned char *image(size_t len) {
    unsigned char *at = &__heap_base;
    if (device.is_open || len > LARGEST || !memory_reaches((size_t)at + len)) return 0;
    heap_start = heap_end = ((size_t)at + len + 15) & ~(size_t)15;
    return at;
}

uip_block rattle_alloc(size_t len, size_t align) {
    size_t at = (heap_end + align - 1) & ~(align - 1), least = len ? len : align;
    if (least > LARGEST || !memory_reaches(at + least)) return (uip_block){0, &device};
    heap_end = at + least;
    blocks++;
    return (uip_block){1, (void *)at};
}

uip_block rattle_realloc(void *block, size_t kept, size_t len, size_t align) {
    (void)block, (void)kept, (void)len, (void)align;
    return (uip_block){0, &device};
}

// The heap is empty again when every block was returned.
void rattle_dealloc(void *block) {
    (void)block;
    blocks--;
    if (blocks == 0) heap_end = heap_start;
}
