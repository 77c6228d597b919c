// Loaded before the C library: lets one allocation of the program fail, the one whose number FAIL_AT gives, from 1.
// Without it, or past the last, none fails. Each process writes the number of its allocations to the file COUNT_TO.
#define _GNU_SOURCE
#include <stdio.h>
#include <stdlib.h>
#include <string.h>
#include <unistd.h>

extern void *__libc_malloc(size_t size);
extern void *__libc_realloc(void *block, size_t size);

static long count, fail_at = -1;
static unsigned long from, to;

// Finds where the program's own code lies: what the C library allocates for itself isn't counted.
static void find_program(void) {
    char line[4096], program[2048];
    ssize_t length = readlink("/proc/self/exe", program, sizeof program - 1);
    program[length < 0 ? 0 : length] = 0;
    fail_at = getenv("FAIL_AT") ? atol(getenv("FAIL_AT")) : 0;
    FILE *maps = fopen("/proc/self/maps", "r");
    while (maps && fgets(line, sizeof line, maps)) {
        unsigned long low, high;
        if (strstr(line, program) && sscanf(line, "%lx-%lx", &low, &high) == 2) {
            from = from ? from : low;
            to = high;
        }
    }
    if (maps) fclose(maps);
}

static int fails(void *caller) {
    if (fail_at < 0) {
        fail_at = 0;
        find_program();
    }
    if ((unsigned long)caller < from || (unsigned long)caller >= to) return 0;
    return ++count == fail_at;
}

void *malloc(size_t size) { return fails(__builtin_return_address(0)) ? NULL : __libc_malloc(size); }

void *realloc(void *block, size_t size) {
    return fails(__builtin_return_address(0)) ? NULL : __libc_realloc(block, size);
}

__attribute__((destructor)) static void tell(void) {
    FILE *out = getenv("COUNT_TO") ? fopen(getenv("COUNT_TO"), "w") : NULL;
    if (out) {
        fprintf(out, "%ld\n", count);
        fclose(out);
    }
}
