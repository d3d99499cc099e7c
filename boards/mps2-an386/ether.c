// The Ethernet controller LAN9118 of qemu's mps2-an386. A frame passes through its queues in words. The board has no lamp.
#define CLOCK 25000000
#define LINE 13
#define LINES [16 + LINE] = interrupt_port
#include "../cortex_m.h"

#define MAC 0x40200000
enum { RX_DATA = MAC, TX_DATA = MAC + 0x20, RX_STATUS = MAC + 0x40, INTERRUPT_FORM = MAC + 0x54, INTERRUPT_STATE = MAC + 0x58,
       INTERRUPT_ENABLE = MAC + 0x5c, TX_FORM = MAC + 0x70, RX_USED = MAC + 0x7c, TX_FREE = MAC + 0x80, COMMAND = MAC + 0xa4, DATA = MAC + 0xa8 };
enum { MAC_CONTROL = 1, MAC_HIGH = 2, MAC_LOW = 3 };                       // registers that COMMAND and DATA reach
enum { RX_ON = 4, TX_ON = 8, RECEIVED = 8, BAD_FRAME = 1 << 15, CHECK = 4, HEAD = 8 };
enum { ACTIVE_HIGH = 0x111, SEND_WITHOUT_STATUS = 6, WHOLE_FRAME = 0x3000 };

static void set(unsigned which, unsigned value) {
    REG(DATA) = value;
    REG(COMMAND) = 1u << 31 | which;
    while (REG(COMMAND) >> 31) {}
}

static unsigned frames_waiting(void) { return REG(RX_USED) >> 16 & 0xff; }

static void port_interrupts(int receives, int sends) {
    (void)sends;
    REG(INTERRUPT_ENABLE) = receives ? RECEIVED : 0;
}

static int frame_waits(void) {
    REG(INTERRUPT_STATE) = RECEIVED;
    return frames_waiting() != 0;
}

// Before its form is set the line is active low: the processor would be interrupted without an end.
static void start(void) {
    REG(INTERRUPT_FORM) = ACTIVE_HIGH;
    ENABLE_LINE(LINE);
}

void lamp(int is_on) { (void)is_on; }

void mac_start(const unsigned char mac[6]) {
    set(MAC_HIGH, mac[4] | mac[5] << 8);
    set(MAC_LOW, mac[0] | mac[1] << 8 | mac[2] << 16 | (unsigned)mac[3] << 24);
    REG(TX_FORM) = SEND_WITHOUT_STATUS;
    set(MAC_CONTROL, RX_ON | TX_ON);
}

// The length in the status includes the frame check sequence.
size_t mac_receive(unsigned char *frame, size_t room) {
    if (!frames_waiting()) return 0;
    unsigned status = REG(RX_STATUS), word = 0;
    size_t len = status >> 16 & 0x3fff;
    for (size_t at = 0; at < (len + 3) / 4 * 4; at++, word >>= 8) {
        if (at % 4 == 0) word = REG(RX_DATA);
        if (at < room) frame[at] = (unsigned char)word;
    }
    return (status & BAD_FRAME) || len < CHECK || len - CHECK > room ? 0 : len - CHECK;
}

// The controller pads a short frame.
void mac_send(const unsigned char *frame, size_t len) {
    while ((REG(TX_FREE) & 0xffff) < len + HEAD + 3) {}
    REG(TX_DATA) = WHOLE_FRAME | (unsigned)len;
    REG(TX_DATA) = (unsigned)len;
    for (size_t at = 0; at < len; at += 4) {
        unsigned word = 0;
        for (size_t k = 0; k < 4 && at + k < len; k++) word |= (unsigned)frame[at + k] << 8 * k;
        REG(TX_DATA) = word;
    }
}
