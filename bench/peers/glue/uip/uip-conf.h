// The options of uIP.
#ifndef UIP_CONF_H
#define UIP_CONF_H
#include <stdint.h>
typedef uint8_t u8_t;
typedef uint16_t u16_t;
typedef uint32_t u32_t;
typedef uint32_t uip_stats_t;
#define UIP_CONF_MAX_CONNECTIONS 10
#define UIP_CONF_MAX_LISTENPORTS 1
#define UIP_CONF_BUFFER_SIZE (MTU + 14)     // 14 for the Ethernet header that this uIP has a look at
#define UIP_CONF_LOGGING 0
#define UIP_CONF_STATISTICS 1
#ifdef WHOLE                                // uIP as it is in that package; it does not compile without UDP
#define UIP_CONF_UDP 1
#define UIP_CONF_UDP_CHECKSUMS 1
#define UIP_CONF_UDP_CONNS 1
#else
#define UIP_CONF_UDP 0
#endif
#endif
