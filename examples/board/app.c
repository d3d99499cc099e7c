// The firmware of a device on Ethernet with an application of its own: a console and Modbus/TCP (answer.c). It ends
// with the first status that is not UIP_OK.
#include "answer.h"
#include "board.h"

static uip_app device = UIP_APP_INIT;
static unsigned char frame[UIP_MAX_FRAME], bytes[UIP_MAX_RECEIVED], reply[UIP_MAX_MESSAGE];

static unsigned sent(uip_result done) {
    if (done.written) mac_send(frame, done.written);
    return done.status;
}

static unsigned serve_slot(size_t slot) {
    unsigned last = 0;
    size_t len = 0;
    uip_received it = uip_app_read(&device, slot, bytes, sizeof bytes);
    size_t taken = answer(&it, bytes, reply, &len, &last);
    if (!taken) return it.status;
    return sent(uip_app_write(&device, slot, taken, reply, len, last, frame, sizeof frame));
}

static unsigned serve(void) {
    unsigned status = UIP_OK;
    for (size_t slot = 0; status == UIP_OK && slot < UIP_SLOTS; slot++) status = serve_slot(slot);
    return status;
}

static unsigned tick(void) {
    unsigned status = UIP_OK;
    for (size_t slot = 0; status == UIP_OK && slot < UIP_SLOTS; slot++)
        status = sent(uip_app_periodic_frame(&device, slot, frame, sizeof frame));
    return status;
}

int main(void) {
    static const unsigned char own[4] = {10, 0, 0, 1}, mac[6] = {2, 0, 0, 0, 0, 1};
    static const unsigned char mask[4] = {255, 255, 255, 0}, router[4] = {10, 0, 0, 2};
    unsigned status = uip_app_open(&device, own, mac, mask, router);
    if (status == UIP_OK) status = uip_app_listen(&device, CONSOLE_PORT);
    if (status == UIP_OK) status = uip_app_listen(&device, MODBUS_PORT);
    board_start();
    mac_start(mac);
    for (unsigned ticks = 0; status == UIP_OK; board_sleep(ticks)) {
        size_t len = mac_receive(frame, sizeof frame);
        if (len) status = sent(uip_app_input_frame(&device, frame, len, sizeof frame));
        if (status == UIP_OK && tick_is_due(&ticks)) status = tick();
        if (status == UIP_OK) status = serve();
    }
    return (int)status;
}
