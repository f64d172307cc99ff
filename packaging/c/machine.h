/* What module.c uses: loads, stores, numbers, and allocations. An address of the module is a number of 64 bits, and is the address of the
 * process. */
#ifndef EXIFNORM_MACHINE_H
#define EXIFNORM_MACHINE_H

#if defined(__BYTE_ORDER__) && defined(__ORDER_LITTLE_ENDIAN__)
#if __BYTE_ORDER__ != __ORDER_LITTLE_ENDIAN__
#error "exifnorm is for machines that store the least significant byte first (little-endian)"
#endif
#elif !defined(_MSC_VER) /* all machines of MSVC are little-endian */
#error "exifnorm needs a compiler that defines __BYTE_ORDER__, as gcc and clang do, or MSVC"
#endif

#include <stddef.h>
#include <stdint.h>
#include <stdlib.h>
#include <string.h>

#if UINTPTR_MAX != UINT64_MAX || SIZE_MAX != UINT64_MAX
#error "exifnorm is for machines with addresses of 64 bits"
#endif

typedef uint8_t u8;
typedef int8_t s8;
typedef uint16_t u16;
typedef int16_t s16;
typedef uint32_t u32;
typedef int32_t s32;
typedef uint64_t u64;
typedef int64_t s64;

#if defined(__GNUC__)
#define UNUSED __attribute__((unused))
#else
#define UNUSED
#endif

/* ---- memory */

static u64 address(const void *place) { return (u64)(uintptr_t)place; }

static void *at(u64 address) { return (void *)(uintptr_t)address; }

#define LOAD(name, stored, result)               \
    UNUSED static result name(u64 address) {     \
        stored value;                            \
        memcpy(&value, at(address), sizeof value); \
        return (result)value;                    \
    }
LOAD(i32_load8_u, u8, u32)
LOAD(i32_load8_s, s8, u32)
LOAD(i32_load16_u, u16, u32)
LOAD(i32_load16_s, s16, u32)
LOAD(i32_load, u32, u32)
LOAD(i64_load8_u, u8, u64)
LOAD(i64_load8_s, s8, u64)
LOAD(i64_load16_u, u16, u64)
LOAD(i64_load16_s, s16, u64)
LOAD(i64_load32_u, u32, u64)
LOAD(i64_load32_s, s32, u64)
LOAD(i64_load, u64, u64)

#define STORE(name, stored, given)                     \
    UNUSED static void name(u64 address, given value) { \
        stored low = (stored)value;                    \
        memcpy(at(address), &low, sizeof low);         \
    }
STORE(i32_store8, u8, u32)
STORE(i32_store16, u16, u32)
STORE(i32_store, u32, u32)
STORE(i64_store8, u8, u64)
STORE(i64_store16, u16, u64)
STORE(i64_store32, u32, u64)
STORE(i64_store, u64, u64)

/* No bytes may have any address. */
UNUSED static void memory_copy(u64 to, u64 from, u64 length) {
    if (length > 0) memmove(at(to), at(from), (size_t)length);
}

UNUSED static void memory_fill(u64 to, u32 value, u64 length) {
    if (length > 0) memset(at(to), (int)(value & 255), (size_t)length);
}

/* ---- numbers. What is not defined here module.c doesn't use. */

/* The module ends so where the proof says that it never is. */
#define UNREACHABLE abort()

UNUSED static u64 divisor(u64 number) {
    if (number == 0) abort();
    return number;
}

/* The operands have the same type, of 32 or 64 bits. */
#define DIV_U(x, y) ((x) / (sizeof(y) == 4 ? (u32)divisor(y) : divisor(y)))
#define REM_U(x, y) ((x) % (sizeof(y) == 4 ? (u32)divisor(y) : divisor(y)))
#define I32_ROTL(x, y) ((x) << ((y) & 31) | (x) >> ((32 - ((y) & 31)) & 31))
#define I32_ROTR(x, y) ((x) >> ((y) & 31) | (x) << ((32 - ((y) & 31)) & 31))
#define I64_ROTL(x, y) ((x) << ((y) & 63) | (x) >> ((64 - ((y) & 63)) & 63))
#define I64_ROTR(x, y) ((x) >> ((y) & 63) | (x) << ((64 - ((y) & 63)) & 63))

UNUSED static u32 I64_CTZ(u64 number) {
    u32 zeros = 0;
    if (number == 0) return 64;
    for (; !(number & 1); number >>= 1) zeros++;
    return zeros;
}

UNUSED static u32 I64_CLZ(u64 number) {
    u32 zeros = 64;
    for (; number > 0; number >>= 1) zeros--;
    return zeros;
}

UNUSED static u32 I32_CTZ(u32 number) { return number == 0 ? 32 : I64_CTZ(number); }

UNUSED static u32 I32_CLZ(u32 number) { return I64_CLZ(number) - 32; }

/* Numbers of 128 bits are two of 64, the low one first. */

/* Stores the product. */
UNUSED static void import_multi3(u64 *stack, u64 product, u64 x, u64 x_high, u64 y, u64 y_high) {
    u64 a = x & 0xffffffff, b = x >> 32, c = y & 0xffffffff, d = y >> 32;
    u64 middle = (a * c >> 32) + (a * d & 0xffffffff) + (b * c & 0xffffffff);
    (void)stack;
    i64_store(product, x * y);
    i64_store(product + 8, b * d + (a * d >> 32) + (b * c >> 32) + (middle >> 32) + x * y_high + x_high * y);
}

/* Stores the quotient, as by hand: a bit of it at a time. */
UNUSED static void import_udivti3(u64 *stack, u64 quotient, u64 x, u64 x_high, u64 y, u64 y_high) {
    u64 low = 0, high = 0, rest = 0, rest_high = 0;
    (void)stack;
    divisor(y | y_high);
    for (int bit = 127; bit >= 0; bit--) {
        u64 next = (bit < 64 ? x >> bit : x_high >> (bit - 64)) & 1, carry = rest_high >> 63;
        rest_high = rest_high << 1 | rest >> 63;
        rest = rest << 1 | next;
        if (carry || rest_high > y_high || (rest_high == y_high && rest >= y)) {
            rest_high -= y_high + (rest < y);
            rest -= y;
            if (bit < 64) low |= (u64)1 << bit;
            else high |= (u64)1 << (bit - 64);
        }
    }
    i64_store(quotient, low);
    i64_store(quotient + 8, high);
}

/* ---- allocations: each stores whether there is memory, and its address */

static void store_allocation(u64 result, void *place) {
    static const u64 nothing = 0; /* an allocation that failed has its address, and nobody uses it */
    i64_store(result, place != NULL);
    i64_store(result + 8, address(place ? place : &nothing));
}

static void import_rattle_alloc(u64 *stack, u64 result, u64 size, u64 alignment) {
    (void)stack, (void)alignment; /* at most that of malloc */
    store_allocation(result, malloc(size > 0 ? (size_t)size : 1));
}

static void import_rattle_realloc(u64 *stack, u64 result, u64 place, u64 old_size, u64 size, u64 alignment) {
    (void)stack, (void)old_size, (void)alignment;
    store_allocation(result, realloc(at(place), size > 0 ? (size_t)size : 1));
}

static void import_rattle_dealloc(u64 *stack, u64 place) {
    (void)stack;
    free(at(place));
}

#endif
