// Quicksort of numbers of 32 bits, turn after turn. The line is a sum of all places times the
// number there, over all turns.

#include "kernel.h"

enum { COUNT = 4096, FEW = 12 };

static u32 numbers[COUNT];

// Sorts a few numbers, each put among those before it.
NOT_INLINED static void insert_all(u32 *first, u32 *last) {
    for (u32 *place = first + 1; place <= last; place++) {
        u32 number = *place, *to = place;
        while (to > first && to[-1] > number) {
            *to = to[-1];
            to--;
        }
        *to = number;
    }
}

// The number in the middle of three.
static u32 middle(u32 a, u32 b, u32 c) {
    if (a < b) {
        return b < c ? b : a < c ? c : a;
    }
    return a < c ? a : b < c ? c : b;
}

// Moves numbers above a pivot behind those below it. Answers where the second part begins.
NOT_INLINED static u32 *part(u32 *low, u32 *high) {
    u32 pivot = middle(*low, low[(high - low) / 2], *high);
    for (;;) {
        while (*low < pivot) {
            low++;
        }
        while (*high > pivot) {
            high--;
        }
        if (low >= high) {
            return low;
        }
        u32 number = *low;
        *low++ = *high;
        *high-- = number;
    }
}

// Sorts from the first number to the last one. The shorter part is sorted by a call.
NOT_INLINED static void sort(u32 *first, u32 *last) {
    while (last - first > FEW) {
        u32 *behind = part(first, last);
        if (behind - first < last - behind) {
            sort(first, behind - 1);
            first = behind;
        } else {
            sort(behind, last);
            last = behind - 1;
        }
    }
    insert_all(first, last);
}

void _start(void) {
    u32 number = 1, sum = 0;
    for (u32 left = turns(); left; left--) {
        for (int i = 0; i < COUNT; i++) {
            number = next(number);
            numbers[i] = number ^ number >> 16;
        }
        sort(numbers, numbers + COUNT - 1);
        for (int i = 0; i < COUNT; i++) {
            sum += i * numbers[i];
        }
    }
    print(&sum, 1);
}
