/* Reads the rows that the tests of all languages run: a call with its arguments and its answer. They are in vectors/, whose README
 * describes their form. */
#ifndef ROWS_H
#define ROWS_H

#include <stdbool.h>
#include <stddef.h>
#include <stdio.h>

#ifdef __cplusplus
extern "C" {
#endif

/* A growing array of bytes that ends in NUL. An argument has exactly its own bytes, without NUL, at the edge of an unreadable page. */
typedef struct text {
    char *at;
    size_t len, room;
} text;

void put(text *to, const char *bytes, size_t len);
void put_word(text *to, const char *word);

/* A call of the rows. Its answer is written in the form of the rows, with a space before each word, or not at all if C has no such
 * call. */
typedef struct call {
    const char *name;
    void (*answer)(text *to, const text *arguments);
    int arguments, asked;
} call;

enum { ARGUMENTS = 3, BUFFER = ARGUMENTS, FENCES };

/* Returns bytes at an edge of a page that must not be touched: in turn at its start, and at its end. They last until the next call with
 * the same number, which is that of an argument, or BUFFER. */
char *fenced(int number, size_t len);

/* All calls. The last entry has no name. `asked` is the call of the row that is answered. */
extern call calls[];
extern call *asked;
extern int checks, failures;

/* Runs rows: `--answer CALLS` those of standard input, and `CALLS FILE FLOOR ..` those of files, which have to have at least FLOOR
 * rows. Counts a row that differs as a failure, and prints the first three of them. Prints a row without an answer with its answer.
 * CALLS is vectors/calls.txt, which says how many arguments each call has. */
void run_rows(int argc, char **argv);

#ifdef __cplusplus
}
#endif

#endif
