// SHA-256 of a buffer, turn after turn. The digest of a turn takes the place of the first bytes of
// the buffer. The line is the last digest.

#include "kernel.h"

enum { BLOCK = 64, BLOCKS = 63, LENGTH = BLOCK * BLOCKS, WORDS = 8, ROUNDS = 64 };

static u8 buffer[LENGTH + BLOCK];

// The first 32 bits behind the point of the cube roots of the first 64 primes.
static const u32 roots[ROUNDS] = {
    0x428a2f98, 0x71374491, 0xb5c0fbcf, 0xe9b5dba5, 0x3956c25b, 0x59f111f1, 0x923f82a4, 0xab1c5ed5,
    0xd807aa98, 0x12835b01, 0x243185be, 0x550c7dc3, 0x72be5d74, 0x80deb1fe, 0x9bdc06a7, 0xc19bf174,
    0xe49b69c1, 0xefbe4786, 0x0fc19dc6, 0x240ca1cc, 0x2de92c6f, 0x4a7484aa, 0x5cb0a9dc, 0x76f988da,
    0x983e5152, 0xa831c66d, 0xb00327c8, 0xbf597fc7, 0xc6e00bf3, 0xd5a79147, 0x06ca6351, 0x14292967,
    0x27b70a85, 0x2e1b2138, 0x4d2c6dfc, 0x53380d13, 0x650a7354, 0x766a0abb, 0x81c2c92e, 0x92722c85,
    0xa2bfe8a1, 0xa81a664b, 0xc24b8b70, 0xc76c51a3, 0xd192e819, 0xd6990624, 0xf40e3585, 0x106aa070,
    0x19a4c116, 0x1e376c08, 0x2748774c, 0x34b0bcb5, 0x391c0cb3, 0x4ed8aa4a, 0x5b9cca4f, 0x682e6ff3,
    0x748f82ee, 0x78a5636f, 0x84c87814, 0x8cc70208, 0x90befffa, 0xa4506ceb, 0xbef9a3f7, 0xc67178f2,
};

// The same of the square roots of the first eight.
static const u32 initial[WORDS] = {
    0x6a09e667, 0xbb67ae85, 0x3c6ef372, 0xa54ff53a, 0x510e527f, 0x9b05688c, 0x1f83d9ab, 0x5be0cd19,
};

static u32 rotated(u32 word, u32 count) {
    return word >> count | word << (32 - count);
}

static void put_word(u8 *bytes, u32 word) {
    bytes[0] = word >> 24;
    bytes[1] = word >> 16;
    bytes[2] = word >> 8;
    bytes[3] = word;
}

static u32 word_of(const u8 *bytes) {
    return (u32)bytes[0] << 24 | bytes[1] << 16 | bytes[2] << 8 | bytes[3];
}

// Expands a block to the words of all rounds.
NOT_INLINED static void schedule(u32 *words, const u8 *block) {
#pragma clang loop unroll(disable)
    for (int i = 0; i < 16; i++) {
        words[i] = word_of(block + 4 * i);
    }
#pragma clang loop unroll(disable)
    for (int i = 16; i < ROUNDS; i++) {
        u32 early = words[i - 15], late = words[i - 2];
        u32 first = rotated(early, 7) ^ rotated(early, 18) ^ early >> 3;
        u32 second = rotated(late, 17) ^ rotated(late, 19) ^ late >> 10;
        words[i] = words[i - 16] + first + words[i - 7] + second;
    }
}

// Takes a block into a state.
NOT_INLINED static void compress(u32 *state, const u8 *block) {
    static u32 words[ROUNDS];
    u32 a = state[0], b = state[1], c = state[2], d = state[3];
    u32 e = state[4], f = state[5], g = state[6], h = state[7];
    schedule(words, block);
#pragma clang loop unroll(disable)
    for (int i = 0; i < ROUNDS; i++) {
        u32 chosen = (e & f) ^ (~e & g), most = (a & b) ^ (a & c) ^ (b & c);
        u32 wide = rotated(e, 6) ^ rotated(e, 11) ^ rotated(e, 25);
        u32 taken = h + wide + chosen + roots[i] + words[i];
        u32 given = (rotated(a, 2) ^ rotated(a, 13) ^ rotated(a, 22)) + most;
        h = g, g = f, f = e, e = d + taken;
        d = c, c = b, b = a, a = taken + given;
    }
    state[0] += a, state[1] += b, state[2] += c, state[3] += d;
    state[4] += e, state[5] += f, state[6] += g, state[7] += h;
}

// Hashes the buffer. Its last block is the padding: a one, zeros, and the length in bits.
NOT_INLINED static void digest(u32 *state) {
#pragma clang loop unroll(disable)
    for (int i = 0; i < WORDS; i++) {
        state[i] = initial[i];
    }
#pragma clang loop unroll(disable)
    for (int at = 0; at < LENGTH + BLOCK; at += BLOCK) {
        compress(state, buffer + at);
    }
}

void _start(void) {
    static u32 state[WORDS];
    u32 number = 1;
    for (int i = 0; i < LENGTH; i++) {
        number = next(number);
        buffer[i] = number >> 24;
    }
    buffer[LENGTH] = 0x80;
    put_word(buffer + LENGTH + BLOCK - 4, 8 * LENGTH);
    for (u32 left = turns(); left; left--) {
        digest(state);
        for (int i = 0; i < WORDS; i++) {
            put_word(buffer + 4 * i, state[i]);
        }
    }
    print(state, WORDS);
}
