// The options of lwIP. With SPEED it has room as on a PC, else the least memory with which ten clients at once get all files.
#ifndef LWIPOPTS_H
#define LWIPOPTS_H
#define NO_SYS 1
#define SYS_LIGHTWEIGHT_PROT 0
#define LWIP_NOASSERT 1
#define MEM_ALIGNMENT __SIZEOF_POINTER__

#define LWIP_IPV4 1
#define LWIP_IPV6 0
#define LWIP_ARP 0
#define LWIP_ETHERNET 0
#define LWIP_UDP 0
#define LWIP_RAW 0
#define LWIP_DHCP 0
#define LWIP_SOCKET 0
#define LWIP_NETCONN 0
#define IP_REASSEMBLY 0
#define IP_FRAG 0
#define LWIP_NETIF_LOOPBACK 0
#define LWIP_HAVE_SLIPIF 1
#define SLIP_USE_RX_THREAD 0
#define SLIP_MAX_SIZE MTU

#define TCP_MSS (MTU - 40)
#define TCP_LISTEN_BACKLOG 0
#define TCP_QUEUE_OOSEQ 0
#define TCP_OVERSIZE 0
#define LWIP_DISABLE_TCP_SANITY_CHECKS 1
#define PBUF_LINK_HLEN 0
#define MEMP_NUM_TCP_PCB 10
#define MEMP_NUM_TCP_PCB_LISTEN 1
#define MEMP_NUM_SYS_TIMEOUT 1
#ifdef SPEED
#define TCP_WND (4 * TCP_MSS)
#define TCP_SND_BUF (4 * TCP_MSS)
#define TCP_SND_QUEUELEN 16
#define MEMP_NUM_TCP_SEG 160
#define MEMP_NUM_PBUF 120
#define PBUF_POOL_SIZE 8
#define PBUF_POOL_BUFSIZE 1536
#define MEM_SIZE 80000
#else
#define TCP_WND TCP_MSS
#define TCP_SND_BUF (2 * TCP_MSS)
#define TCP_SND_QUEUELEN 4
#define TCP_SNDLOWAT (TCP_SND_BUF / 2)
#define TCP_SNDQUEUELOWAT 1
#define MEMP_NUM_TCP_SEG 10
#define MEMP_NUM_PBUF 10
#define PBUF_POOL_SIZE 14
#define PBUF_POOL_BUFSIZE 128
#define MEM_SIZE 4400
#endif

#define LWIP_STATS 1                        // the counters that the script page shows
#define LWIP_STATS_LARGE 1
#define IP_STATS 1
#define ICMP_STATS 1
#define TCP_STATS 1
#define LINK_STATS 0
#define MEM_STATS 0
#define MEMP_STATS 0
#define SYS_STATS 0
#define IPFRAG_STATS 0
#define UDP_STATS 0
#define ETHARP_STATS 0

#define LWIP_HTTPD_SSI 1
#define LWIP_HTTPD_SSI_MULTIPART 1
#define LWIP_HTTPD_SSI_INCLUDE_TAG 0
#define LWIP_HTTPD_SSI_BY_FILE_EXTENSION 0
#define LWIP_HTTPD_MAX_TAG_INSERT_LEN 120
#define LWIP_HTTPD_CUSTOM_FILES 1
#define LWIP_HTTPD_DYNAMIC_HEADERS 1
#define LWIP_HTTPD_SUPPORT_V09 0
#define LWIP_HTTPD_SUPPORT_REQUESTLIST 1
#define LWIP_HTTPD_MAX_REQ_LENGTH 512
#define HTTPD_SERVER_AGENT "uIP/1.0"
#define HTTPD_FSDATA_FILE "no_files.h"
#endif
