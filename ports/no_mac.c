// An Ethernet controller that receives nothing and sends nothing, for a board without one: with it the firmware of ether.c is linked for every
// target, so that its flash and stack can be computed. The board keeps its serial port and its clock (ring.c).
#include "board.h"

void mac_start(const unsigned char mac[6]) { (void)mac; }

size_t mac_receive(unsigned char *frame, size_t room) {
    (void)frame, (void)room;
    return 0;
}

void mac_send(const unsigned char *frame, size_t len) { (void)frame, (void)len; }
