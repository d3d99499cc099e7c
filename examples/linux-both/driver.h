// What both.c needs of a machine. Here it is Linux with a TAP interface (tap_driver.c). A firmware has another file in its place.
#include <stddef.h>

// Copies the next frame that arrived to `frame`, at most `room` bytes, and returns its length; 0 if none arrived.
size_t mac_receive(unsigned char *frame, size_t room);

// Sends a frame of `len` bytes: a uip_sink. `to` is not used.
void mac_send(void *to, const unsigned char *frame, size_t len);

// Whether a tick is due: if two are due, it is true twice, and if more are due, after a stall, once.
int half_a_second_passed(void);

// Waits until a frame has arrived, or half a second has passed. It may return earlier: a firmware may sleep here, or return at once.
void wait_for_work(void);

// Writes random bytes, for the secret of the device.
void random_bytes(unsigned char *to, size_t len);

// For the test under Linux: attaches the program to an interface, for a number of seconds or until SIGTERM. A firmware is always running.
void open_driver(const char *interface, unsigned seconds);
int is_running(void);

extern unsigned long received, sent;    // frames
