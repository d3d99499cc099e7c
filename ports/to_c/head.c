/*
 * uip.c - the TCP/IP stack Lowunbisa with its web server, in one file of C99
 *
 * Compile it with your program, with uip.h beside it:     cc -O2 main.c uip.c
 *
 * It is for any processor with addresses of 32 or 64 bits, of either byte order, and for any compiler of C99 or C++. uip.h describes the
 * calls. Without a definition the file has the calls of uip.h, for serial lines, datagrams and Ethernet. Define one of these for another set:
 *
 *     UIP_NO_ETHERNET    the calls of uip.h but for the three for Ethernet: it is smaller
 *     UIP_APP            those of uip_app.h: your own TCP protocol on Ethernet, without the web server
 *     UIP_BOTH           those of uip_both.h: your own TCP protocol and the web server, on Ethernet
 *
 * The memory: the program has the three functions `rattle_..` of uip.h; heap.c is these for a firmware. On Linux and macOS, with gcc or clang, a
 * program needs none: the file then calls malloc. With another compiler UIP_MALLOC lets it do so.
 *
 * The file needs memcpy, memmove, memset, and what the compiler needs for numbers of 64 bits.
 *
 * ports/to_c.py made this file from the proved library. Do not edit it. The library's source is proved; this translation is tested.
 *
 * SPDX-License-Identifier: MIT OR Apache-2.0
 */
#ifndef UIP_SOURCE
#define UIP_SOURCE
#endif
#if defined(UIP_BOTH)
#include "uip_both.h"
#define SET 8
#elif defined(UIP_APP)
#include "uip_app.h"
#define SET 4
#elif defined(UIP_NO_ETHERNET)
#include "uip.h"
#define SET 1
#else
#include "uip.h"
#define SET 2
#endif
#define IS_SERIAL (SET == 1)
#define IS_WHOLE (SET == 2)
#define IS_APP (SET == 4)
#define IS_BOTH (SET == 8)

#ifdef __cplusplus
typedef bool flag;
#else
typedef _Bool flag;
#endif
typedef unsigned char u8;
typedef unsigned short u16;
typedef unsigned u32;
typedef unsigned long long u64;
typedef struct { u64 low, high; } u128;
typedef char uip_needs_types[sizeof(u16) == 2 && sizeof(u32) == 4 && sizeof(u64) == 8 && sizeof(size_t) == sizeof(void *) ? 1 : -1];

#if defined(__GNUC__) && !defined(__TINYC__) && defined(__BYTE_ORDER__)
#define IS_GNU 1
#define INLINE __attribute__((unused)) static inline
#define MEMMOVE __builtin_memmove
#define MEMCPY __builtin_memcpy
#define MEMSET __builtin_memset
#define UNREACHABLE() __builtin_unreachable()
#define TRAP() __builtin_trap()
#define AT4(address) ((u8 *)__builtin_assume_aligned(address, 4))    /* an address that is a multiple of 4 */
#define AT8(address) ((u8 *)__builtin_assume_aligned(address, 8))
#else
#include <string.h>
#define INLINE static inline
#define MEMMOVE memmove
#define MEMCPY memcpy
#define MEMSET memset
#define UNREACHABLE() do { } while (1)
#define TRAP() do { } while (1)
#define AT4(address) (address)
#define AT8(address) (address)
#endif

/* ---- memory: a number is stored least byte first, on every processor, and a pointer has 8 bytes. A function whose name ends in u takes any
 * address, the others one that is aligned for the type. */

#ifdef IS_GNU
typedef u16 __attribute__((may_alias)) any2;
typedef u32 __attribute__((may_alias)) any4;
typedef u64 __attribute__((may_alias)) any8;
typedef struct __attribute__((packed, may_alias)) { u16 n; } any2u;
typedef struct __attribute__((packed, may_alias)) { u32 n; } any4u;
typedef struct __attribute__((packed, may_alias)) { u64 n; } any8u;
#if __BYTE_ORDER__ == __ORDER_LITTLE_ENDIAN__
#define ORDERED(bits, n) (n)
#else
#define ORDERED(bits, n) __builtin_bswap##bits(n)
#endif
#define ACCESS(size, bits) \
    INLINE u##bits get##size(const u8 *at) { return ORDERED(bits, *(const any##size *)(const void *)at); } \
    INLINE u##bits get##size##u(const u8 *at) { return ORDERED(bits, ((const any##size##u *)at)->n); } \
    INLINE void put##size(u8 *at, u##bits n) { *(any##size *)(void *)at = ORDERED(bits, n); } \
    INLINE void put##size##u(u8 *at, u##bits n) { ((any##size##u *)at)->n = ORDERED(bits, n); }
ACCESS(2, 16)
ACCESS(4, 32)
ACCESS(8, 64)
#else
INLINE u16 get2u(const u8 *at) { return (u16)(at[0] | at[1] << 8); }
INLINE u32 get4u(const u8 *at) { return at[0] | (u32)at[1] << 8 | (u32)at[2] << 16 | (u32)at[3] << 24; }
INLINE u64 get8u(const u8 *at) { return get4u(at) | (u64)get4u(at + 4) << 32; }
INLINE void put2u(u8 *at, u16 n) { at[0] = (u8)n; at[1] = (u8)(n >> 8); }
INLINE void put4u(u8 *at, u32 n) { at[0] = (u8)n; at[1] = (u8)(n >> 8); at[2] = (u8)(n >> 16); at[3] = (u8)(n >> 24); }
INLINE void put8u(u8 *at, u64 n) { put4u(at, (u32)n); put4u(at + 4, (u32)(n >> 32)); }
#define get2 get2u
#define get4 get4u
#define get8 get8u
#define put2 put2u
#define put4 put4u
#define put8 put8u
#endif

#if defined(IS_GNU) && __SIZEOF_POINTER__ == 4    /* short clearings of an aligned address: by words where that is shorter than a call */
INLINE void CLEAR16(u8 *at) { put4(at, 0); put4(at + 4, 0); put4(at + 8, 0); put4(at + 12, 0); }
INLINE void CLEAR20(u8 *at) { CLEAR16(at); put4(at + 16, 0); }
INLINE void CLEAR24(u8 *at) { CLEAR20(at); put4(at + 20, 0); }
INLINE void CLEAR32(u8 *at) { CLEAR16(at); CLEAR16(at + 16); }
#else
#define CLEAR16(at) MEMSET(at, 0, 16)
#define CLEAR20(at) MEMSET(at, 0, 20)
#define CLEAR24(at) MEMSET(at, 0, 24)
#define CLEAR32(at) MEMSET(at, 0, 32)
#endif

INLINE u8 *getp(const u8 *at) { return (u8 *)(size_t)get8(at); }
INLINE u8 *getpu(const u8 *at) { return (u8 *)(size_t)get8u(at); }
INLINE void putp(u8 *at, const u8 *to) { put8(at, (u64)(size_t)to); }
INLINE void putpu(u8 *at, const u8 *to) { put8u(at, (u64)(size_t)to); }
INLINE u64 get6u(const u8 *at) { return get4u(at) | (u64)get2u(at + 4) << 32; }
INLINE void put6u(u8 *at, u64 n) { put4u(at, (u32)n); put2u(at + 4, (u16)(n >> 32)); }

/* ---- numbers */

INLINE u128 pair128(u64 low, u64 high) { u128 n; n.low = low; n.high = high; return n; }
INLINE u128 get16(const u8 *at) { return pair128(get8(at), get8(at + 8)); }
INLINE void put16(u8 *at, u128 n) { put8(at, n.low); put8(at + 8, n.high); }
INLINE u128 add128(u128 n, u128 more) { return pair128(n.low + more.low, n.high + more.high + (n.low + more.low < n.low)); }
INLINE u128 or128(u128 n, u128 more) { return pair128(n.low | more.low, n.high | more.high); }
INLINE u128 shift128(u128 n, unsigned by) { return pair128(n.low << by, n.high << by | n.low >> (64 - by)); }    /* 0 < by < 64 */

typedef size_t u_size;
#define SMALL(bits) \
    INLINE u##bits umin##bits(u##bits a, u##bits b) { return a < b ? a : b; } \
    INLINE u##bits umax##bits(u##bits a, u##bits b) { return a > b ? a : b; } \
    INLINE u##bits usubsat##bits(u##bits a, u##bits b) { return (u##bits)(a - (a < b ? a : b)); } \
    INLINE u##bits uaddsat##bits(u##bits a, u##bits b) { return (u##bits)(a + b) < a ? (u##bits)~(u##bits)0 : (u##bits)(a + b); }
SMALL(8)
SMALL(16)
SMALL(32)
SMALL(64)
SMALL(_size)
INLINE u64 rotl64(u64 n, unsigned by) { return n << by | n >> (64 - by); }    /* by 1 to 63 */
INLINE u16 bswap16(u16 n) { return (u16)(n << 8 | n >> 8); }
INLINE u32 bswap32(u32 n) { return n << 24 | (n & 0xff00) << 8 | (n >> 8 & 0xff00) | n >> 24; }
INLINE u64 bswap48(u64 n) { return (u64)bswap32((u32)n) << 16 | bswap16((u16)(n >> 32)); }
INLINE u64 bswap64(u64 n) { return (u64)bswap32((u32)n) << 32 | bswap32((u32)(n >> 32)); }
INLINE u32 down32(u32 n, u32 by) { return n >> by | (n >> 31 ? ~(~(u32)0 >> by) : 0); }
INLINE u64 down64(u64 n, u64 by) { return n >> by | (n >> 63 ? ~(~(u64)0 >> by) : 0); }
