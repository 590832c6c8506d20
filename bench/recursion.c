// Functions that call themselves, turn after turn: Fibonacci's and Ackermann's. The line is made of
// what they give.

#include "kernel.h"

// The arguments. They are volatile, so that each turn makes its calls anew.
static volatile u32 for_fibonacci = 21, for_ackermann = 60;

NOT_INLINED static u32 fibonacci(u32 n) {
    return n < 2 ? n : fibonacci(n - 1) + fibonacci(n - 2);
}

NOT_INLINED static u32 ackermann(u32 m, u32 n) {
    if (m == 0) {
        return n + 1;
    }
    return ackermann(m - 1, n ? ackermann(m, n - 1) : 1);
}

void _start(void) {
    u32 sum = 0;
    for (u32 left = turns(); left; left--) {
        sum = 31 * sum + fibonacci(for_fibonacci);
        sum = 31 * sum + ackermann(2, for_ackermann);
    }
    print(&sum, 1);
}
