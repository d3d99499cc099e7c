// A device on the serial port of a board, with the loop of support/step.c: it sleeps between the bytes. What it does with its pages is in a file
// of its own, which defines work: examples/first/first.c, or the one that PAGES names.
#include "step.h"
#include "site.c"                              // tools/pack.py makes it
#define UIP_HEAP_SIZE UIP_MEMORY(SITE_IMAGE_FILES)
#include "heap.c"

void board_start(void);
void protect(void);                            // gives the device a secret, if the processor has random bytes

uip_device device = UIP_INIT;

int main(void) {
    static const unsigned char own[4] = {10, 0, 0, 1};
    uip_opened opened = uip_open(&device, site_image, SITE_IMAGE_LEN, own);
    board_start();
    if (opened.status != UIP_OK) return (int)opened.status;
    protect();
    return (int)serve();
}
