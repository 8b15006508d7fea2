/*
 * Refuses allocations of the program PROGRAM: the allocation with the number REFUSED, counted from 1, and then makes the file MET;
 * or each allocation of more than LARGEST bytes. The runner of the tests also loads this library, but none of its allocations is
 * refused.
 */
#define _GNU_SOURCE
#include <errno.h>
#include <fcntl.h>
#include <stdlib.h>
#include <string.h>
#include <unistd.h>

extern void *__libc_malloc(size_t size);
extern void *__libc_realloc(void *block, size_t size);

/* Returns the number in a variable of the environment, or the greatest number if it is not set. */
static unsigned long number(const char *name) {
    const char *word = getenv(name);
    return word ? strtoul(word, NULL, 10) : -1ul;
}

static int is_refused(size_t size) {
    static unsigned long allocations;
    const char *program = getenv("PROGRAM"), *met = getenv("MET");
    if (!program || strcmp(program, program_invocation_short_name) != 0) return 0;
    if (size > number("LARGEST")) return 1;
    if (++allocations != number("REFUSED")) return 0;
    if (met) close(open(met, O_CREAT | O_WRONLY, 0666));
    return 1;
}

void *malloc(size_t size) { return is_refused(size) ? NULL : __libc_malloc(size); }

void *realloc(void *block, size_t size) { return is_refused(size) ? NULL : __libc_realloc(block, size); }
