// What lwIP asks of a compiler and a processor.
#ifndef CC_H
#define CC_H
#include <stdint.h>
#include <stdlib.h>
#define LWIP_NO_UNISTD_H 1
#define LWIP_NO_INTTYPES_H 1
#define LWIP_NO_CTYPE_H 1
#define X8_F "x"
#define U16_F "u"
#define S16_F "d"
#define X16_F "x"
#define U32_F "u"
#define S32_F "d"
#define X32_F "x"
#define SZT_F "u"
#define LWIP_PLATFORM_DIAG(words)
#define LWIP_TIMEVAL_PRIVATE 0
#define LWIP_RAND() 12345u                  // the same numbers in each run
struct sio_status_s;
#define sio_fd_t struct sio_status_s *
#define __sio_fd_t_defined
#endif
