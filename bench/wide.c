// Arithmetic of 64 bits, turn after turn: random numbers, and their inverses modulo a prime by
// powers. The line is made of the inverses.

#include "kernel.h"

enum { NUMBERS = 40 };

// The prime 2^61 - 1.
#define PRIME ((1ull << 61) - 1)

// A number below 2^64 modulo the prime.
static u64 reduced(u64 number) {
    number = (number & PRIME) + (number >> 61);
    return number >= PRIME ? number - PRIME : number;
}

// The product of two numbers below the prime, modulo it. There 2^61 is 1, and so 2^64 is 8.
NOT_INLINED static u64 product(u64 a, u64 b) {
    u64 a_low = (u32)a, a_high = a >> 32, b_low = (u32)b, b_high = b >> 32;
    u64 middle = a_low * b_high + a_high * b_low, low = a_low * b_low;
    u64 sum = reduced(8 * a_high * b_high);
    sum += reduced((middle >> 29) + ((middle & ((1ull << 29) - 1)) << 32));
    sum += reduced(low);
    return reduced(sum);
}

NOT_INLINED static u64 power(u64 base, u64 exponent) {
    u64 result = 1;
    for (; exponent; exponent >>= 1) {
        if (exponent & 1) {
            result = product(result, base);
        }
        base = product(base, base);
    }
    return result;
}

// The next random number: shifts, then a product whose high bits are the best ones.
static u64 random(u64 *state) {
    u64 number = *state;
    number ^= number >> 12;
    number ^= number << 25;
    number ^= number >> 27;
    *state = number;
    return number * 0x2545f4914f6cdd1dull;
}

void _start(void) {
    u64 state = 1, sum = 0;
    for (u32 left = turns(); left; left--) {
        for (int i = 0; i < NUMBERS; i++) {
            u64 number = random(&state) % (PRIME - 1) + 1;
            sum = (sum << 7 | sum >> 57) ^ power(number, PRIME - 2);
        }
    }
    u32 halves[] = {sum >> 32, sum};
    print(halves, 2);
}
