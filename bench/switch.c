// A machine of sixteen registers in a `switch`, which runs one program turn after turn. The program
// sieves the primes below LIMIT. For each it follows the numbers n / 2 or 3 n + 1 down to 1, and
// counts their steps. The line is made of these counts.

#include "kernel.h"

enum { REGISTERS = 16, LIMIT = 512 };

// Operations. Those with an `N` take a small number as their last operand, not a register.
enum code {
    STOP, SET, MOVE, ADD, ADD_N, MUL, MUL_N, AND_N, SHIFT_N, EQUAL_N, LESS, LOAD, STORE, GO, GO_IF
};

struct operation {
    u8 code, to, left, right;
};

// Registers of the program: zero, the limit, a candidate, a condition, a multiple, n, the count.
enum { ZERO, END, TRIED, TRUTH, MULTIPLE, N, COUNT };

// Places of the program.
enum { CLEAR = 2, TRY = 7, MARK = 11, MARK_TEST = 13, FOLLOW = 16, ODD = 23, NEXT = 26 };

static const struct operation program[] = {
    {SET, END, LIMIT / 256, LIMIT % 256},
    {SET, TRIED, 0, 0},
    // CLEAR
    {STORE, TRIED, ZERO, 0},
    {ADD_N, TRIED, TRIED, 1},
    {LESS, TRUTH, TRIED, END},
    {GO_IF, CLEAR, TRUTH, 0},
    {SET, TRIED, 0, 2},
    // TRY
    {LOAD, TRUTH, TRIED, 0},
    {GO_IF, NEXT, TRUTH, 0},
    {MUL, MULTIPLE, TRIED, TRIED},
    {GO, MARK_TEST, 0, 0},
    // MARK
    {STORE, MULTIPLE, END, 0},
    {ADD, MULTIPLE, MULTIPLE, TRIED},
    // MARK_TEST
    {LESS, TRUTH, MULTIPLE, END},
    {GO_IF, MARK, TRUTH, 0},
    {MOVE, N, TRIED, 0},
    // FOLLOW
    {EQUAL_N, TRUTH, N, 1},
    {GO_IF, NEXT, TRUTH, 0},
    {ADD_N, COUNT, COUNT, 1},
    {AND_N, TRUTH, N, 1},
    {GO_IF, ODD, TRUTH, 0},
    {SHIFT_N, N, N, 1},
    {GO, FOLLOW, 0, 0},
    // ODD
    {MUL_N, N, N, 3},
    {ADD_N, N, N, 1},
    {GO, FOLLOW, 0, 0},
    // NEXT
    {ADD_N, TRIED, TRIED, 1},
    {LESS, TRUTH, TRIED, END},
    {GO_IF, TRY, TRUTH, 0},
    {STOP, 0, 0, 0},
};

static u32 registers[REGISTERS], memory[LIMIT];

// Runs the program to its end.
NOT_INLINED static void run(void) {
    u32 *r = registers;
    const struct operation *at = program;
    for (;;) {
        u8 to = at->to, left = at->left, right = at->right;
        switch ((enum code)(at++)->code) {
        case STOP: return;
        case SET: r[to] = left << 8 | right; break;
        case MOVE: r[to] = r[left]; break;
        case ADD: r[to] = r[left] + r[right]; break;
        case ADD_N: r[to] = r[left] + right; break;
        case MUL: r[to] = r[left] * r[right]; break;
        case MUL_N: r[to] = r[left] * right; break;
        case AND_N: r[to] = r[left] & right; break;
        case SHIFT_N: r[to] = r[left] >> right; break;
        case EQUAL_N: r[to] = r[left] == right; break;
        case LESS: r[to] = r[left] < r[right]; break;
        case LOAD: r[to] = memory[r[left]]; break;
        case STORE: memory[r[to]] = r[left]; break;
        case GO: at = program + to; break;
        case GO_IF: at = r[left] ? program + to : at; break;
        }
    }
}

void _start(void) {
    u32 sum = 0;
    for (u32 left = turns(); left; left--) {
        registers[COUNT] = 31 * sum;
        run();
        sum = registers[COUNT];
    }
    print(&sum, 1);
}
