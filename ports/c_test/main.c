// Calls uip_x of a module, or of its translation, 100 times with random areas, and prints a hash of all that it left.
#include <stdio.h>
#ifdef MODULE
unsigned long long uip_x(unsigned char *, unsigned long long);
#define CALL uip_x
#else
#include TRANSLATION
#define CALL port_uip_x
#endif

int main(void) {
    static union { unsigned char bytes[256]; unsigned long long number; } area;
    unsigned long long random = 1, hash = 0;
    for (unsigned call = 0; call < 100; call++) {
        for (unsigned at = 0; at < 256; at++) {
            random = random * 6364136223846793005ull + 1442695040888963407ull;
            area.bytes[at] = (unsigned char)((random >> 33) % (call % 3 ? 300 : 3));
        }
        hash = (hash ^ CALL(area.bytes, random >> 33)) * 0x100000001b3ull;
        for (unsigned at = 0; at < 256; at++) hash = (hash ^ area.bytes[at]) * 0x100000001b3ull;
    }
    printf("%llx\n", hash);
    return 0;
}
