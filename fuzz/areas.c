// Areas that end at a page which cannot be touched, so that one byte too many faults. An input is mapped twice: where the library sees
// it, it cannot be written.
#define _GNU_SOURCE
#include <string.h>
#include <sys/mman.h>
#include <unistd.h>
#include "parts.h"

enum { PAGE = 4096 };

// Pages for so many bytes and one that cannot be touched behind them; of a file where it is not -1.
static byte *guarded(size_t len, int file, int may) {
    byte *at = mmap(0, len + PAGE, PROT_NONE, MAP_PRIVATE | MAP_ANONYMOUS, -1, 0);
    WANT(at != MAP_FAILED, "no memory for the harness");
    int how = MAP_FIXED | (file < 0 ? MAP_PRIVATE | MAP_ANONYMOUS : MAP_SHARED);
    WANT(mmap(at, len, may, how, file, 0) == at, "no memory for the harness");
    return at;
}

area area_new(size_t len, int is_input) {
    len = (len + PAGE - 1) / PAGE * PAGE;
    if (!is_input) {
        byte *at = guarded(len, -1, PROT_READ | PROT_WRITE);
        return (area){at, at, len};
    }
    int file = memfd_create("input", 0);
    WANT(file >= 0 && ftruncate(file, (off_t)len) == 0, "no memory for the harness");
    return (area){guarded(len, file, PROT_READ | PROT_WRITE), guarded(len, file, PROT_READ), len};
}

const byte *put_input(const area *in, const byte *bytes, size_t len) {
    memcpy(in->writable + in->len - len, bytes, len);
    return in->seen + in->len - len;
}

byte *take_room(const area *out, size_t room) { return out->writable + out->len - room; }
