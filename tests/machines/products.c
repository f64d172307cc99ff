/* The products and quotients of 128 bits of machine.h against the compiler's own, for operands with bits at every place. */
#include "machine.h"
#include <stdio.h>

typedef unsigned __int128 wide;

static u64 state = 0x9E3779B97F4A7C15u;

static u64 next(void) {
    state ^= state << 13;
    state ^= state >> 7;
    state ^= state << 17;
    return state;
}

/* A number of 128 bits of which the highest are 0, as often at one place as at another. */
static wide operand(void) { return (((wide)next() << 64) | next()) >> (next() & 127); }

static wide result_of(void (*call)(u64 *, u64, u64, u64, u64, u64), wide x, wide y) {
    u64 stack = 0, halves[2];
    call(&stack, address(halves), (u64)x, (u64)(x >> 64), (u64)y, (u64)(y >> 64));
    return ((wide)halves[1] << 64) | halves[0];
}

int main(void) {
    for (int i = 0; i < 200000; i++) {
        wide x = operand(), y = operand();
        if (result_of(import_multi3, x, y) != x * y) return 1;
        if (y && result_of(import_udivti3, x, y) != x / y) return 2;
        if (y && result_of(import_udivti3, x * y, y) != (x * y) / y) return 3;
    }
    for (int bit = 0; bit < 64; bit++) {
        u64 number = (u64)1 << bit;
        if (I64_CTZ(number) != (u32)bit || I64_CLZ(number) != 63 - (u32)bit) return 4;
        if (I64_ROTL(number, (u64)64 - (u64)bit) != 1 || I64_ROTR(number, (u64)bit) != 1) return 5;
        if (bit < 32 && (I32_CTZ((u32)number) != (u32)bit || I32_CLZ((u32)number) != 31 - (u32)bit)) return 6;
        if (bit < 32 && (I32_ROTL((u32)number, 32 - (u32)bit) != 1 || I32_ROTR((u32)number, (u32)bit) != 1)) return 7;
    }
    if (I64_CTZ(0) != 64 || I64_CLZ(0) != 64 || I32_CTZ(0) != 32 || I32_CLZ(0) != 32) return 8;
    return 0;
}
