/* Products, shifts and quotients of 128 bits, which LLVM calls by these names, over integers of 64 bits. */

#include "wasm.h"

static u64 low_of(u128 a) { return (u64)a; }

static u64 high_of(u128 a) { return ((union { u128 whole; u64 half[2]; }){a}).half[1]; }

static u128 of(u64 low, u64 high) { return ((union { u64 half[2]; u128 whole; }){{low, high}}).whole; }

/* The product of two numbers of 64 bits. */
static u128 product(u64 a, u64 b) {
    u64 a0 = a & 0xffffffff, a1 = a >> 32, b0 = b & 0xffffffff, b1 = b >> 32;
    u64 low = a0 * b0, middle = a1 * b0 + (low >> 32), other = a0 * b1 + (middle & 0xffffffff);
    return of(other << 32 | (low & 0xffffffff), a1 * b1 + (middle >> 32) + (other >> 32));
}

/* The product's lowest 128 bits. */
i128 __multi3(i128 a, i128 b) {
    u128 of_lows = product(low_of(a), low_of(b));
    return (i128)of(low_of(of_lows), high_of(of_lows) + low_of(a) * high_of(b) + high_of(a) * low_of(b));
}

/* `a` shifted left by 0 to 127. */
i128 __ashlti3(i128 a, i32 by) {
    if (by & 64)
        return (i128)of(0, low_of(a) << (by & 63));
    if (by == 0)
        return a;
    return (i128)of(low_of(a) << by, high_of(a) << by | low_of(a) >> (64 - by));
}

/* `a`, without a sign, shifted right by 0 to 127. */
i128 __lshrti3(i128 a, i32 by) {
    if (by & 64)
        return (i128)of(high_of(a) >> (by & 63), 0);
    if (by == 0)
        return a;
    return (i128)of(low_of(a) >> by | high_of(a) << (64 - by), high_of(a) >> by);
}

/* The quotient of two numbers without a sign, by long division: bit for bit from the highest, as by hand. `b` is not 0. */
u128 __udivti3(u128 a, u128 b) {
    if (!high_of(a) && !high_of(b))
        return low_of(a) / low_of(b);
    u128 quotient = 0, rest = 0;
    for (i32 bit = 127; bit >= 0; bit--) {
        u64 half = bit < 64 ? low_of(a) : high_of(a);
        rest = rest << 1 | (half >> (bit & 63) & 1); /* at most the bits of a from this one on */
        quotient <<= 1;
        if (rest >= b) {
            rest -= b;
            quotient |= 1;
        }
    }
    return quotient;
}
