// Adds up numbers. Each request is a number, and the line for it the sum so far, or `no number`.
//
// The sum is in a variable: the host keeps it. docs/WORKERS.md has the line that builds it.

#include <stdio.h>
#include <stdlib.h>

enum { LONGEST = 4096 };

int main(void) {
    // A request, its newline and a zero.
    static char request[LONGEST + 2];
    long long total = 0;
    while (fgets(request, sizeof request, stdin)) {
        char *end;
        long long number = strtoll(request, &end, 10);
        if (end == request || *end != '\n') {
            puts("no number");
        } else {
            total += number;
            printf("%lld\n", total);
        }
    }
    return 0;
}
