// The firmware: a device on the serial port, and a tick each half second. It ends with the first status that is not UIP_OK.
#include "board.h"
#include "uip.h"

extern const unsigned char site_image[], site_image_end[];

static uip_device device = UIP_INIT;
static unsigned char out[32];

int main(void) {
    static const unsigned char own[4] = {10, 0, 0, 1};
    board_start();
    uip_opened opened = uip_open(&device, site_image, (size_t)(site_image_end - site_image), own);
    unsigned status = opened.status;
    for (unsigned ticks = 0; status == UIP_OK; board_sleep(ticks)) {
        port_bytes came = port_waiting();
        status = uip_feed_all(&device, came.at, came.len, out, sizeof out, port_send, 0);
        port_taken(came.len);
        if (status != UIP_OK || !tick_is_due(&ticks)) continue;
        status = uip_tick_all(&device, out, sizeof out, port_send, 0);
    }
    return (int)status;
}
