// What the kernels share: how often they turn, and the line that they print.
//
// A kernel is run as `worker TURNS`. It does its work so many times, and prints one line of
// hexadecimal digits, which depends on all of the work. No library is linked.

typedef unsigned char u8;
typedef unsigned int u32;
typedef unsigned long long u64;

#define NOT_INLINED __attribute__((noinline))
#define WASI(name) __attribute__((import_module("wasi_snapshot_preview1"), import_name(name)))

struct piece {
    const void *start;
    u32 length;
};

WASI("args_sizes_get") int args_sizes_get(u32 *count, u32 *length);
WASI("args_get") int args_get(u8 **words, u8 *text);
WASI("fd_write") int fd_write(int file, const struct piece *pieces, u32 count, u32 *written);
WASI("proc_exit") _Noreturn void proc_exit(int code);

enum { MOST_WORDS = 4, MOST_TEXT = 64, STANDARD_OUTPUT = 1, WRONG_WORDS = 1 };

// The number in the second word. Without one the process exits.
NOT_INLINED static u32 turns(void) {
    static u8 *words[MOST_WORDS];
    static u8 text[MOST_TEXT];
    u32 count, length, number = 0;
    args_sizes_get(&count, &length);
    if (count != 2 || length > MOST_TEXT) {
        proc_exit(WRONG_WORDS);
    }
    args_get(words, text);
    for (const u8 *at = words[1]; *at; at++) {
        number = 10 * number + (*at - '0');
    }
    return number;
}

// Prints words of 32 bits as a line, each by its eight digits.
NOT_INLINED static void print(const u32 *words, u32 count) {
    static u8 line[8 * 8 + 1];
    u32 written, length = 0;
    for (u32 word = 0; word < count; word++) {
        for (int shift = 28; shift >= 0; shift -= 4) {
            line[length++] = "0123456789abcdef"[words[word] >> shift & 15];
        }
    }
    line[length++] = '\n';
    struct piece piece = {line, length};
    fd_write(STANDARD_OUTPUT, &piece, 1, &written);
}

// The next number of a sequence, which begins anywhere.
static inline u32 next(u32 number) {
    return number * 1664525 + 1013904223;
}
