// The functions that compiled code calls and a C library or compiler library usually has: small ones, for a firmware without either.
#include <stddef.h>
#include <stdint.h>

typedef uint32_t __attribute__((may_alias)) word;
static int is_at_word(const void *at) { return ((uintptr_t)at & 3) == 0; }

// By words from the first word on, if both areas begin at the same place of a word.
void *memcpy(void *to, const void *from, size_t len) {
    unsigned char *t = to;
    const unsigned char *f = from;
    if ((((uintptr_t)t ^ (uintptr_t)f) & 3) == 0) {
        for (; len && !is_at_word(t); len--) *t++ = *f++;
        for (; len >= 4; len -= 4, t += 4, f += 4) *(word *)t = *(const word *)f;
    }
    for (; len; len--) *t++ = *f++;
    return to;
}

void *memmove(void *to, const void *from, size_t len) {
    unsigned char *t = to;
    const unsigned char *f = from;
    if (t <= f || t >= f + len) return memcpy(to, from, len);
    while (len) len--, t[len] = f[len];
    return to;
}

void *memset(void *to, int byte, size_t len) {
    unsigned char *t = to;
    for (; len && !is_at_word(t); len--) *t++ = (unsigned char)byte;
    for (; len >= 4; len -= 4, t += 4) *(word *)t = (unsigned char)byte * 0x01010101u;
    for (; len; len--) *t++ = (unsigned char)byte;
    return to;
}

#if __SIZEOF_POINTER__ == 4    // division of 64-bit numbers
typedef struct { uint64_t quotient, remainder; } division;

#if defined(__ARM_FEATURE_IDIV) || defined(__riscv_div)
// By a divisor of 16 bits: a first digit of 32 bits and two of 16, each divided by the processor. A checksum needs it.
static division divide_digits(uint64_t a, uint32_t b) {
    uint32_t high = (uint32_t)(a >> 32), low = (uint32_t)a;
    uint32_t middle = high % b << 16 | low >> 16;
    uint32_t last = middle % b << 16 | (low & 0xffff);
    return (division){(uint64_t)(high / b) << 32 | ((middle / b << 16) + last / b), last % b};
}
#else
#define divide_digits(a, b) divide_bits(a, b)
#endif

// Bit by bit.
static division divide_bits(uint64_t a, uint64_t b) {
    division d = {0, 0};
    for (int bit = 0; bit < 64; bit++) {
        d.remainder = d.remainder << 1 | a >> 63;
        d.quotient <<= 1;
        a <<= 1;
        if (d.remainder >= b) {
            d.remainder -= b;
            d.quotient |= 1;
        }
    }
    return d;
}

division divide(uint64_t a, uint64_t b) { return b <= 0xffff ? divide_digits(a, (uint32_t)b) : divide_bits(a, b); }

uint64_t __udivdi3(uint64_t a, uint64_t b) { return divide(a, b).quotient; }
uint64_t __umoddi3(uint64_t a, uint64_t b) { return divide(a, b).remainder; }
#endif

#if __SIZEOF_POINTER__ == 4 && (!defined __arm__ || defined __clang__)    // shifts of 64-bit numbers, by 0 to 63; gcc has them in libgcc
uint64_t __lshrdi3(uint64_t a, int by) {
    uint32_t high = (uint32_t)(a >> 32), low = (uint32_t)a;
    if (by >= 32) return high >> (by - 32);
    return by ? (uint64_t)(high >> by) << 32 | (low >> by | high << (32 - by)) : a;
}

uint64_t __ashldi3(uint64_t a, int by) {
    uint32_t high = (uint32_t)(a >> 32), low = (uint32_t)a;
    if (by >= 32) return (uint64_t)(low << (by - 32)) << 32;
    return by ? (uint64_t)(high << by | low >> (32 - by)) << 32 | low << by : a;
}
#endif

#ifdef __arm__    // the names of Arm's run-time ABI
void __aeabi_memcpy(void *to, const void *from, size_t len) { memcpy(to, from, len); }
void __aeabi_memcpy4(void *to, const void *from, size_t len) { memcpy(to, from, len); }
void __aeabi_memcpy8(void *to, const void *from, size_t len) { memcpy(to, from, len); }
void __aeabi_memmove(void *to, const void *from, size_t len) { memmove(to, from, len); }
void __aeabi_memmove4(void *to, const void *from, size_t len) { memmove(to, from, len); }
void __aeabi_memmove8(void *to, const void *from, size_t len) { memmove(to, from, len); }
void __aeabi_memset(void *to, size_t len, int byte) { memset(to, byte, len); }
void __aeabi_memset4(void *to, size_t len, int byte) { memset(to, byte, len); }
void __aeabi_memset8(void *to, size_t len, int byte) { memset(to, byte, len); }
void __aeabi_memclr(void *to, size_t len) { memset(to, 0, len); }
void __aeabi_memclr4(void *to, size_t len) { memset(to, 0, len); }
void __aeabi_memclr8(void *to, size_t len) { memset(to, 0, len); }

// The quotient in r0 and r1, the remainder in r2 and r3.
__attribute__((naked)) void __aeabi_uldivmod(void) {
    __asm__ volatile("push {r4, lr}\n sub sp, #24\n str r2, [sp]\n str r3, [sp, #4]\n mov r2, r0\n mov r3, r1\n add r0, sp, #8\n"
                     "bl divide\n ldr r0, [sp, #8]\n ldr r1, [sp, #12]\n ldr r2, [sp, #16]\n ldr r3, [sp, #20]\n add sp, #24\n pop {r4, pc}");
}

#ifndef __ARM_FEATURE_IDIV
// For a Cortex-M0+, bit by bit: the quotient in r0, the remainder in r1.
uint64_t __aeabi_uidivmod(uint32_t a, uint32_t b) {
    uint32_t quotient = 0, remainder = 0;
    for (int bit = 0; bit < 32; bit++, a <<= 1) {
        int is_larger = (int)(remainder >> 31);
        remainder = remainder << 1 | a >> 31;
        quotient <<= 1;
        if (is_larger || remainder >= b) {
            remainder -= b;
            quotient |= 1;
        }
    }
    return (uint64_t)remainder << 32 | quotient;
}

uint32_t __aeabi_uidiv(uint32_t a, uint32_t b) { return (uint32_t)__aeabi_uidivmod(a, b); }
#endif

#ifdef __clang__
uint64_t __aeabi_llsr(uint64_t a, int by) { return __lshrdi3(a, by); }
uint64_t __aeabi_llsl(uint64_t a, int by) { return __ashldi3(a, by); }
#endif

uint64_t __aeabi_lmul(uint64_t a, uint64_t b) {    // for a Cortex-M0+: products of 16-bit parts
    uint32_t low = (uint32_t)a, high = (uint32_t)(a >> 32), other = (uint32_t)b;
    uint64_t middle = (uint64_t)((low >> 16) * (other & 0xffff)) + (low & 0xffff) * (other >> 16);
    uint64_t product = (low & 0xffff) * (other & 0xffff) + (middle << 16) + ((uint64_t)((low >> 16) * (other >> 16)) << 32);
    return product + ((uint64_t)(low * (uint32_t)(b >> 32) + high * other) << 32);
}
#endif
