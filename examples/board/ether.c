// The firmware of a device on Ethernet: frames in place of a serial port's bytes. It ends with the first status that is not UIP_OK.
#include "board.h"
#include "uip.h"

extern const unsigned char site_image[], site_image_end[];

static uip_device device = UIP_INIT;
static unsigned char frame[UIP_MAX_FRAME];

static unsigned sent(uip_result done) {
    if (done.written) mac_send(frame, done.written);
    return done.status;
}

int main(void) {
    static const unsigned char own[4] = {10, 0, 0, 1}, mac[6] = {2, 0, 0, 0, 0, 1};
    static const unsigned char mask[4] = {255, 255, 255, 0}, router[4] = {10, 0, 0, 2};
    uip_opened opened = uip_open_ether(&device, site_image, (size_t)(site_image_end - site_image), own, mac, mask, router);
    unsigned status = opened.status;
    board_start();
    mac_start(mac);
    for (unsigned ticks = 0; status == UIP_OK; board_sleep(ticks)) {
        size_t len = mac_receive(frame, sizeof frame);
        if (len) status = sent(uip_input_frame(&device, frame, len, sizeof frame));
        if (status != UIP_OK || !tick_is_due(&ticks)) continue;
        for (size_t slot = 0; status == UIP_OK && slot < UIP_SLOTS; slot++)
            status = sent(uip_periodic_frame(&device, slot, frame, sizeof frame));
    }
    return (int)status;
}
