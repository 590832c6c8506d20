// A notebook. It answers requests, and keeps its notes in the file `notes`, one a line.
//
//     add TEXT    adds a note: `added`
//     list        prints each note with its number, and then how many there are
//     drop N      takes note N out: `dropped`, or `no note N`
//     clear       takes all notes out: `cleared`
//
// It ends with its input. docs/WORKERS.md has the line that builds it. With -DVERSION=2 it is its
// next version, which goes on with the same file, and says more:
//
//     add TEXT    adds a note: `added note N`
//     find TEXT   prints each note that holds the text, with its number: or `none`

#include <fcntl.h>
#include <stdio.h>
#include <stdlib.h>
#include <string.h>
#include <unistd.h>

#ifndef VERSION
#define VERSION 1
#endif

enum { LINE = 4096, ROOM = 65536 };

// All notes, each with a newline after it.
static char notes[ROOM];

// Reads the file, and answers its length. Where there is none there are no notes.
static size_t read_notes(void) {
    int file = open("notes", O_RDONLY);
    size_t length = 0;
    if (file < 0) {
        return 0;
    }
    while (length < ROOM) {
        ssize_t more = read(file, notes + length, ROOM - length);
        if (more <= 0) {
            break;
        }
        length += (size_t)more;
    }
    close(file);
    return length;
}

// Writes all of a text, and closes the file. Answers whether that went well.
static int write_all(int file, const char *text, size_t length) {
    if (file < 0) {
        return 0;
    }
    while (length > 0) {
        ssize_t written = write(file, text, length);
        if (written <= 0) {
            break;
        }
        text += written;
        length -= (size_t)written;
    }
    return close(file) == 0 && length == 0;
}

// Puts other notes in the place of all. The file is replaced at once, by a whole one.
static int replace_notes(size_t length) {
    int file = open("notes.new", O_WRONLY | O_CREAT | O_TRUNC, 0666);
    return write_all(file, notes, length) && rename("notes.new", "notes") == 0;
}

// The place after the end of a note.
static size_t end_of(size_t start, size_t length) {
    while (start < length && notes[start] != '\n') {
        start++;
    }
    return start < length ? start + 1 : length;
}

static void say(int is_done, const char *word) {
    printf("%s\n", is_done ? word : "failed");
}

// How many notes there are.
static int count_notes(size_t length) {
    int count = 0;
    for (size_t at = 0; at < length; at++) {
        count += notes[at] == '\n';
    }
    return count;
}

static void add(char *text) {
    size_t length = strlen(text), before = read_notes();
    if (before + length + 1 > ROOM) {
        printf("full\n");
        return;
    }
    text[length] = '\n';
    int is_added =
        write_all(open("notes", O_WRONLY | O_CREAT | O_APPEND, 0666), text, length + 1);
    if (VERSION >= 2 && is_added) {
        printf("added note %d\n", count_notes(before) + 1);
    } else {
        say(is_added, "added");
    }
}

static void list(void) {
    size_t length = read_notes(), start = 0;
    int number = 0;
    while (start < length) {
        size_t end = end_of(start, length);
        printf("%d %.*s\n", ++number, (int)(end - 1 - start), notes + start);
        start = end;
    }
    printf("%d notes\n", number);
}

static void find(const char *text) {
    size_t length = read_notes(), start = 0;
    int number = 0, found = 0;
    while (start < length) {
        size_t end = end_of(start, length);
        notes[end - 1] = 0;
        number++;
        if (strstr(notes + start, text)) {
            printf("%d %s\n", number, notes + start);
            found++;
        }
        start = end;
    }
    if (found == 0) {
        printf("none\n");
    }
}

static void drop(int number) {
    size_t length = read_notes(), start = 0;
    for (int before = 1; before < number && start < length; before++) {
        start = end_of(start, length);
    }
    if (number < 1 || start == length) {
        printf("no note %d\n", number);
        return;
    }
    size_t end = end_of(start, length);
    memmove(notes + start, notes + end, length - end);
    say(replace_notes(length - (end - start)), "dropped");
}

static void answer(char *request) {
    if (strncmp(request, "add ", 4) == 0) {
        add(request + 4);
    } else if (strcmp(request, "list") == 0) {
        list();
    } else if (VERSION >= 2 && strncmp(request, "find ", 5) == 0) {
        find(request + 5);
    } else if (strncmp(request, "drop ", 5) == 0) {
        drop(atoi(request + 5));
    } else if (strcmp(request, "clear") == 0) {
        say(replace_notes(0), "cleared");
    } else {
        puts(VERSION >= 2 ? "add TEXT, list, find TEXT, drop N or clear"
                          : "add TEXT, list, drop N or clear");
    }
}

int main(void) {
    // A request, its newline and a zero.
    static char request[LINE + 2];
    while (fgets(request, sizeof request, stdin)) {
        request[strcspn(request, "\n")] = 0;
        answer(request);
    }
    return 0;
}
