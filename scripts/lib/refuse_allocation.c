// Refuses one allocation of a program that it is preloaded into: the call whose number, from 1 on,
// the environment variable REFUSED_ALLOCATION holds, among all calls of the functions below. That
// call returns as if out of memory. Where ALLOCATIONS names a file, the number of all those
// calls is written to it when the program ends.
//
// Where EACH_REFUSED names a folder, each allocation is refused, in a child that is forked there.
// The program itself goes on as without. It must write nothing but its outputs. How the children
// have ended is in the file `ends` of the folder, a line for all that ended in one way: how many,
// the number of the first, the status of wait, and both outputs in hexadecimal digits behind a dot.
//
//     cc -shared -fPIC -O2 -o refuse_allocation.so refuse_allocation.c
//     REFUSED_ALLOCATION=3 LD_PRELOAD=./refuse_allocation.so PROGRAM
//     ALLOCATIONS=count.txt LD_PRELOAD=./refuse_allocation.so PROGRAM
//     EACH_REFUSED=folder LD_PRELOAD=./refuse_allocation.so PROGRAM

#include <errno.h>
#include <fcntl.h>
#include <stddef.h>
#include <stdio.h>
#include <stdlib.h>
#include <string.h>
#include <sys/wait.h>
#include <unistd.h>

// The C library's own, under the names that a preloaded library cannot hide.
extern void *__libc_malloc(size_t size);
extern void *__libc_calloc(size_t count, size_t size);
extern void *__libc_realloc(void *old, size_t size);
extern void *__libc_memalign(size_t alignment, size_t size);

// How many calls there were so far, and the number of the refused one, or 0 where none is refused.
static long calls = 0;
static long refused = 0;

// The files of a child's outputs and of all ends, and whether each allocation is refused. A child
// has so many seconds.
enum { LONGEST_PATH = 512, SECONDS = 600 };
static char output_paths[2][LONGEST_PATH], ends_path[LONGEST_PATH];
static int is_each_refused = 0;

// One way in which children have ended. Of an output its first bytes are kept.
enum { MOST_ENDS = 64, LONGEST_OUTPUT = 1024 };
struct output {
    long length;
    unsigned char bytes[LONGEST_OUTPUT];
};
struct end {
    long count, first;
    int status;
    struct output outputs[2];
};
static struct end ends[MOST_ENDS];
static int end_count = 0;

__attribute__((constructor)) static void read_number(void) {
    const char *number = getenv("REFUSED_ALLOCATION"), *folder = getenv("EACH_REFUSED");
    refused = number ? atol(number) : 0;
    calls = 0;
    if (folder) {
        snprintf(output_paths[0], LONGEST_PATH, "%s/out", folder);
        snprintf(output_paths[1], LONGEST_PATH, "%s/err", folder);
        snprintf(ends_path, LONGEST_PATH, "%s/ends", folder);
        is_each_refused = 1;
    }
}

static void write_ends(void) {
    int file = open(ends_path, O_WRONLY | O_CREAT | O_TRUNC, 0644);
    for (struct end *it = ends; it < ends + end_count; it++) {
        dprintf(file, "%ld %ld %d", it->count, it->first, it->status);
        for (int one = 0; one < 2; one++) {
            dprintf(file, " .");
            for (long place = 0; place < it->outputs[one].length; place++) {
                dprintf(file, "%02x", it->outputs[one].bytes[place]);
            }
        }
        dprintf(file, "\n");
    }
}

// What this takes itself isn't refused.
__attribute__((destructor)) static void write_calls(void) {
    const char *path = getenv("ALLOCATIONS");
    int file = path ? open(path, O_WRONLY | O_CREAT | O_TRUNC, 0644) : -1;
    if (file >= 0) {
        dprintf(file, "%ld\n", calls);
    }
    if (is_each_refused) {
        is_each_refused = 0;
        write_ends();
    }
}

// Adds the end of a child to those of its kind. More kinds than there is room for end the program.
static void note_end(int status) {
    static struct end end;
    memset(&end, 0, sizeof end);
    end.status = status;
    for (int one = 0; one < 2; one++) {
        int file = open(output_paths[one], O_RDONLY);
        long length = read(file, end.outputs[one].bytes, LONGEST_OUTPUT);
        end.outputs[one].length = length < 0 ? 0 : length;
        close(file);
    }
    for (struct end *it = ends; it < ends + end_count; it++) {
        if (it->status == status && !memcmp(it->outputs, end.outputs, sizeof end.outputs)) {
            it->count++;
            return;
        }
    }
    if (end_count == MOST_ENDS) {
        abort();
    }
    end.count = 1;
    end.first = calls;
    ends[end_count++] = end;
}

// Forks a child in which this allocation is refused, and waits for its end.
static int is_refused_in_child(void) {
    int status = 0, child = fork();
    if (child < 0) {
        abort();
    }
    if (child > 0) {
        waitpid(child, &status, 0);
        note_end(status);
        return 0;
    }
    is_each_refused = 0;
    alarm(SECONDS);
    for (int one = 0; one < 2; one++) {
        dup2(open(output_paths[one], O_WRONLY | O_CREAT | O_TRUNC, 0600), one + 1);
    }
    errno = ENOMEM;
    return 1;
}

static int is_refused(void) {
    calls++;
    if (is_each_refused) {
        return is_refused_in_child();
    }
    if (calls != refused) {
        return 0;
    }
    errno = ENOMEM;
    return 1;
}

void *malloc(size_t size) {
    return is_refused() ? NULL : __libc_malloc(size);
}

void *calloc(size_t count, size_t size) {
    return is_refused() ? NULL : __libc_calloc(count, size);
}

void *realloc(void *old, size_t size) {
    return is_refused() ? NULL : __libc_realloc(old, size);
}

void *aligned_alloc(size_t alignment, size_t size) {
    return is_refused() ? NULL : __libc_memalign(alignment, size);
}

int posix_memalign(void **made, size_t alignment, size_t size) {
    void *found = is_refused() ? NULL : __libc_memalign(alignment, size);
    if (found == NULL) {
        return ENOMEM;
    }
    *made = found;
    return 0;
}
