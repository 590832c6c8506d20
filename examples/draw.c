// Draws lots: its arguments are words, and two persons get one of them each by chance. Who draws
// comes from the variable NAME.
//
//     draw.wasm --env NAME=Ada -- red green blue
//
// Each draw takes two random numbers, each of four bytes with the lowest first. The first one,
// modulo the number of words that are left, is the place of the word among these, counted from 0.
// The second one, modulo the number of persons that are left, is the place of the person. Both are
// then taken out, and the others keep their order. It ends where no word or no person is left.
//
// The first line has the seconds of the real time, each other one those that passed since then by
// the monotonic clock. docs/WORKERS.md has the line that builds it.

#include <stdint.h>
#include <stdio.h>
#include <stdlib.h>
#include <time.h>
#include <unistd.h>

static const char *persons[] = {"Bob", "Eve"};

static long long seconds(clockid_t clock) {
    struct timespec now;
    if (clock_gettime(clock, &now) != 0) {
        exit(1);
    }
    return now.tv_sec;
}

// A random number below a count.
static unsigned below(unsigned count) {
    uint8_t bytes[4];
    if (getentropy(bytes, sizeof bytes) != 0) {
        exit(1);
    }
    uint32_t word = bytes[0] | bytes[1] << 8 | bytes[2] << 16 | (uint32_t)bytes[3] << 24;
    return word % count;
}

// Takes one of the texts out by chance. The others keep their order.
static const char *draw(const char **texts, unsigned count) {
    unsigned place = below(count);
    const char *drawn = texts[place];
    for (unsigned next = place + 1; next < count; next++) {
        texts[next - 1] = texts[next];
    }
    return drawn;
}

int main(int argc, char **argv) {
    const char **words = (const char **)argv + 1;
    const char *name = getenv("NAME");
    unsigned words_left = argc > 0 ? (unsigned)argc - 1 : 0;
    unsigned persons_left = sizeof persons / sizeof persons[0];
    printf("%s draws at %lld\n", name ? name : "Nobody", seconds(CLOCK_REALTIME));
    long long start = seconds(CLOCK_MONOTONIC);
    while (words_left > 0 && persons_left > 0) {
        const char *word = draw(words, words_left--);
        const char *person = draw(persons, persons_left--);
        printf("%s for %s after %lld s\n", word, person, seconds(CLOCK_MONOTONIC) - start);
    }
    return 0;
}
