// Edits a text. Each request changes it, and the answer is how long it is and how it begins:
//
//     put AT TEXT         puts a text before the byte at AT
//     copy FROM LEN AT    puts a part of the text there
//     cut AT LEN          takes a part out
//     hide AT LEN         puts a dot to each byte of a part
//     turn AT LEN BY      turns the letters of a part, each as far as BY says
//
// What comes after a change is moved by `memmove`, and a part is hidden by `memset`. By the flags in
// README.md each of these calls is one instruction. docs/WORKERS.md has the line that builds it.

#include <ctype.h>
#include <stdint.h>
#include <stdio.h>
#include <stdlib.h>
#include <string.h>

enum { LONGEST = 4096, ROOM = 60000, SHOWN = 60 };

static char text[ROOM];
static size_t length;

// Whether there is such a part.
static int has(size_t at, size_t len) {
    return at <= length && len <= length - at;
}

// Makes room for so many bytes, if there is some.
static int open_gap(size_t at, size_t len) {
    if (at > length || len > ROOM - length) {
        return 0;
    }
    memmove(text + at + len, text + at, length - at);
    length += len;
    return 1;
}

static int put(size_t at, const char *more) {
    size_t len = strlen(more);
    if (!open_gap(at, len)) {
        return 0;
    }
    memcpy(text + at, more, len);
    return 1;
}

static int copy(size_t from, size_t len, size_t at) {
    static char part[ROOM];
    if (!has(from, len)) {
        return 0;
    }
    memcpy(part, text + from, len);
    if (!open_gap(at, len)) {
        return 0;
    }
    memcpy(text + at, part, len);
    return 1;
}

static int cut(size_t at, size_t len) {
    if (!has(at, len)) {
        return 0;
    }
    memmove(text + at, text + at + len, length - at - len);
    length -= len;
    return 1;
}

static int hide(size_t at, size_t len) {
    if (!has(at, len)) {
        return 0;
    }
    memset(text + at, '.', len);
    return 1;
}

// A step of 200 is one of -56: only its low byte counts, with its sign.
static int turn(size_t at, size_t len, long by) {
    if (!has(at, len)) {
        return 0;
    }
    int step = (int8_t)by;
    for (size_t i = at; i < at + len; i++) {
        if (islower((unsigned char)text[i])) {
            text[i] = (char)('a' + ((text[i] - 'a' + step) % 26 + 26) % 26);
        }
    }
    return 1;
}

// The next number of a request.
static size_t number(char **rest) {
    return strtoul(*rest, rest, 10);
}

static int edit(char *request) {
    char *rest = strchr(request, ' ');
    if (rest == NULL) {
        return 0;
    }
    *rest++ = '\0';
    size_t first = number(&rest);
    if (strcmp(request, "put") == 0) {
        return *rest == ' ' && put(first, rest + 1);
    }
    size_t second = number(&rest);
    if (strcmp(request, "cut") == 0) {
        return cut(first, second);
    }
    if (strcmp(request, "hide") == 0) {
        return hide(first, second);
    }
    if (strcmp(request, "copy") == 0) {
        return copy(first, second, number(&rest));
    }
    return strcmp(request, "turn") == 0 && turn(first, second, strtol(rest, NULL, 10));
}

int main(void) {
    static char request[LONGEST + 2];
    while (fgets(request, sizeof request, stdin)) {
        request[strcspn(request, "\n")] = '\0';
        if (edit(request)) {
            printf("%zu: %.*s\n", length, (int)(length < SHOWN ? length : SHOWN), text);
        } else {
            puts("no change");
        }
    }
    return 0;
}
