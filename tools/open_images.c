// For pack_test.py: reads images from standard input, each after its length in 4 bytes, and writes a line for each: what uip_open reports.
#include <stdio.h>
#include <stdlib.h>
#include "uip.h"

int main(void) {
    static const unsigned char own[4] = {10, 0, 0, 1};
    unsigned char head[4];
    while (fread(head, 1, 4, stdin) == 4) {
        size_t len = (size_t)head[0] << 24 | (size_t)head[1] << 16 | (size_t)head[2] << 8 | head[3];
        unsigned char *image = malloc(len + 1);
        if (!image || fread(image, 1, len, stdin) != len) return 2;
        uip_device device = UIP_INIT;
        uip_opened opened = uip_open(&device, image, len, own);
        if (opened.status == UIP_OK) puts("good");
        else if (opened.status == UIP_BAD_IMAGE) printf("bad site %.8s %u\n", opened.word, opened.entry);
        else printf("status %u\n", opened.status);
        if (opened.status == UIP_OK) uip_close(&device);
        free(image);
    }
    return 0;
}
