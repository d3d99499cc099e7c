// The pages of a site at port 80, a console at port 5025 and a Modbus/TCP server at port 502, on one device on Ethernet. The level that the
// console sets is value 2 of the pages. The driver is in another file (driver.h): here a TAP interface of Linux.
//
//     uip_both IMAGE INTERFACE SECONDS      runs at 10.0.0.1 for that many seconds or until SIGTERM, and prints what passed.
//                                           10.0.0.2 leads to all addresses but 10.0.0.0 to 10.0.0.255
#include <stdio.h>
#include <stdlib.h>
#include <string.h>
#include "driver.h"
#include "uip_both.h"

size_t answer_line(char *line, char *reply, unsigned *last);                  // ../linux-app/console.c
size_t answer_frame(const unsigned char *bytes, size_t len, unsigned char *reply, size_t *taken, unsigned *last);    // ../linux-app/modbus.c

enum { CONSOLE_PORT = 5025, MODBUS_PORT = 502 };

extern size_t heap_blocks;    // of the heap: how many blocks are not freed

static unsigned char image[1 << 20], frame[UIP_MAX_FRAME];
static uip_device device = UIP_INIT;
static unsigned long lines, frames;

static void expect_ok(unsigned status) {
    if (status == UIP_OK) return;
    fprintf(stderr, "a call returned status %u\n", status);
    exit(1);
}

static void send_written(uip_result done) {
    expect_ok(done.status);
    if (done.written) mac_send(0, frame, done.written);
}

// ---- the application

// Shows the level in the pages, if this reply of the console has it.
static void show_level(const char *reply, size_t len) {
    if (len > 4 && !memcmp(reply, "ok ", 3)) expect_ok(uip_set_value(&device, 2, reply + 3, len - 4));
}

// Answers the line or the frame that a connection has received, if it is whole.
static int answer(size_t slot) {
    unsigned char bytes[UIP_MAX_RECEIVED], reply[UIP_MAX_MESSAGE], *end;
    unsigned last = 0;
    size_t taken = 0, len = 0;
    uip_received it = uip_read(&device, slot, bytes, sizeof bytes);
    expect_ok(it.status);
    if (!it.ready || !it.len) return 0;
    if (it.port == MODBUS_PORT) {
        len = answer_frame(bytes, it.len, reply, &taken, &last);
        if (!taken) return 0;
        frames++;
    } else {
        end = memchr(bytes, '\n', it.len);
        if (!end) return 0;
        *end = 0;
        taken = (size_t)(end - bytes) + 1;
        len = answer_line((char *)bytes, (char *)reply, &last);
        show_level((char *)reply, len);
        lines++;
    }
    send_written(uip_write(&device, slot, taken, reply, len, last, frame, sizeof frame));
    return 1;
}

static void serve(void) {
    for (size_t slot = 0; slot < UIP_SLOTS; slot++)
        while (answer(slot)) {}
}

// ---- the device

// Opens the device with the image of this file, gives it a secret, opens its ports, and sets the values that its pages show first.
static void open_device(const char *name) {
    unsigned char secret[16];
    static const unsigned char own[4] = {10, 0, 0, 1}, mac[6] = {2, 0, 0, 0, 0, 1}, mask[4] = {255, 255, 255, 0}, router[4] = {10, 0, 0, 2};
    FILE *file = fopen(name, "rb");
    if (!file) {
        perror(name);
        exit(1);
    }
    size_t len = fread(image, 1, sizeof image, file);
    fclose(file);
    uip_opened opened = uip_open_ether(&device, image, len, own, mac, mask, router);
    if (opened.status != UIP_OK) {
        fprintf(stderr, "uip_open_ether returned status %u %s %u\n", opened.status, opened.word, opened.entry);
        exit(1);
    }
    random_bytes(secret, sizeof secret);
    expect_ok(uip_protect(&device, secret));
    expect_ok(uip_listen(&device, CONSOLE_PORT));
    expect_ok(uip_listen(&device, MODBUS_PORT));
    expect_ok(uip_set_value(&device, 0, "both", 4));
    expect_ok(uip_set_value(&device, 1, "0", 1));
    expect_ok(uip_set_value(&device, 2, "0", 1));
}

// One round of the loop: a received frame, and a tick if it is due.
static void work(void) {
    size_t len = mac_receive(frame, sizeof frame);
    if (len) {
        send_written(uip_input_frame(&device, frame, len, sizeof frame));
        serve();
    }
    if (half_a_second_passed()) {
        expect_ok(uip_tick_frames(&device, frame, sizeof frame, mac_send, 0));
        serve();
    }
}

int main(int argc, char **argv) {
    if (argc != 4) {
        fprintf(stderr, "uip_both IMAGE INTERFACE SECONDS\n");
        return 2;
    }
    open_device(argv[1]);
    size_t blocks = heap_blocks;
    open_driver(argv[2], (unsigned)atoi(argv[3]));
    while (is_running()) {
        wait_for_work();
        work();
    }
    if (heap_blocks != blocks) fprintf(stderr, "a call allocated memory\n");
    printf("frames received: %lu, sent: %lu; lines: %lu, Modbus frames: %lu, hits of /style.css: %u; blocks: %zu\n", received, sent, lines,
           frames, uip_hits(&device, "/style.css", 10).number, blocks);
    return uip_close(&device) != UIP_OK || heap_blocks != 0;
}
