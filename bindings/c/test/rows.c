/* Reads rows, and compares their results with the answers of the calls. */
#include "rows.h"

#include <stdlib.h>
#include <string.h>

call *asked;
int checks, failures;

void put(text *to, const char *bytes, size_t len) {
    if (to->len + len + 1 > to->room) {
        to->room = 2 * (to->len + len + 1);
        to->at = realloc(to->at, to->room);
        if (!to->at) abort();
    }
    if (len > 0) memcpy(to->at + to->len, bytes, len);
    to->len += len;
    to->at[to->len] = '\0';
}

void put_word(text *to, const char *word) { put(to, word, strlen(word)); }

/* Appends a line in which each {N:piece} is expanded. */
static void put_expanded(text *to, const char *line, size_t len) {
    const char *end = line + len;
    while (line < end) {
        const char *piece, *brace = memchr(line, '{', (size_t)(end - line));
        if (!brace) brace = end;
        put(to, line, (size_t)(brace - line));
        if ((line = brace) == end) break;
        unsigned long times = strtoul(line + 1, (char **)&piece, 10);
        line = memchr(piece, '}', (size_t)(end - piece));
        if (*piece++ != ':' || !line) abort();
        while (times-- > 0) put(to, piece, (size_t)(line - piece));
        line++;
    }
}

/* Removes a field from a row, up to the next bar. */
static text take_field(const char **row) {
    const char *end = strstr(*row, " | ");
    size_t len = end ? (size_t)(end - *row) : strlen(*row);
    text field = {(char *)*row, len, len};
    *row += end ? len + 3 : len;
    return field;
}

/* Returns the bytes of a field. */
static text argument_of(text word, int number) {
    text out = {NULL, 0, 0};
    const char *at = word.at, *end = at + word.len;
    put(&out, "", 0);
    if (word.len == 2 && memcmp(at, "''", 2) == 0) at = end;
    for (; at < end; at++) {
        char byte = *at;
        if (byte == '\\') {
            byte = (char)strtoul((char[]){at[2], at[3], '\0'}, NULL, 16);
            at += 3;
        }
        put(&out, &byte, 1);
    }
    text placed = {fenced(number, out.len), out.len, out.len};
    memcpy(placed.at, out.at, out.len);
    free(out.at);
    return placed;
}

static call *call_named(text name) {
    call *it = calls;
    while (it->name && (strlen(it->name) != name.len || memcmp(it->name, name.at, name.len) != 0)) it++;
    return it;
}

static void tell(const char *name, int line, const char *row, const char *wanted, const char *found) {
    static int told;
    failures++;
    if (told++ < 3) printf("%s:%d: %.300s\n  wanted%.300s\n  found %.300s\n", name, line, row, wanted, found);
}

/* Runs one row, with the lines after it that belong to it. */
static bool ask(const char *name, int line, const char *row, const char *more) {
    const char *rest = row;
    text arguments[ARGUMENTS], found = {NULL, 0, 0}, wanted = {NULL, 0, 0};
    asked = call_named(take_field(&rest));
    if (!asked->name) return false;
    for (int k = 0; k < asked->arguments; k++) arguments[k] = argument_of(take_field(&rest), k);
    put(&found, "", 0), put(&wanted, " ", rest[0] != '\0' ? 1 : 0);
    put_word(&wanted, rest), put_word(&wanted, more);
    asked->answer(&found, arguments);
    bool is_asked = found.len > 0;
    if (is_asked && wanted.len == 0) printf("%s |%s\n", row, found.at);
    else if (is_asked && (checks++, strcmp(found.at, wanted.at) != 0)) tell(name, line, row, wanted.at, found.at);
    asked->asked += is_asked;
    free(found.at), free(wanted.at);
    return is_asked;
}

static text read_all(FILE *file) {
    text out = {NULL, 0, 0};
    char piece[4096];
    put(&out, "", 0);
    for (size_t got; (got = fread(piece, 1, sizeof piece, file)) > 0;) put(&out, piece, got);
    return out;
}

static void read_calls(const char *name) {
    FILE *file = name ? fopen(name, "r") : NULL;
    char word[64], line[256];
    int count;
    while (file && fgets(line, sizeof line, file))
        if (sscanf(line, "%63s %d", word, &count) == 2 && count <= ARGUMENTS)
            call_named((text){word, strlen(word), sizeof word})->arguments = count;
    if (!file) failures++, printf("no table of calls\n");
    else fclose(file);
}

static int ask_rows(FILE *file, const char *name) {
    text all = read_all(file);
    int asked = 0, line = 0;
    for (const char *at = all.at; *at;) {
        size_t len = strcspn(at, "\n");
        text row = {NULL, 0, 0}, more = {NULL, 0, 0};
        int begun = ++line;
        put(&row, "", 0), put(&more, "", 0);
        if (len > 0 && *at != '#') put_expanded(&row, at, len);
        for (at += len + (at[len] != '\0'); *at == ' '; at += len + (at[len] != '\0'), line++) {
            len = strcspn(at, "\n");
            put(&more, "\n", 1), put_expanded(&more, at, len);
        }
        if (row.len > 0) asked += ask(name, begun, row.at, more.at);
        free(row.at), free(more.at);
    }
    free(all.at);
    return asked;
}

static void ask_file(const char *name, int floor) {
    FILE *file = fopen(name, "rb");
    int count = file ? ask_rows(file, name) : 0;
    printf("%s: %d rows\n", name, count);
    if (count < floor) failures++, printf("at least %d were to be asked\n", floor);
    if (file) fclose(file);
}

void run_rows(int argc, char **argv) {
    if (argc > 1 && strcmp(argv[1], "--answer") == 0) {
        read_calls(argv[2]);
        ask_rows(stdin, "the standard input");
        return;
    }
    read_calls(argc > 1 ? argv[1] : NULL);
    for (int k = 2; k + 1 < argc; k += 2) ask_file(argv[k], atoi(argv[k + 1]));
    for (const call *it = calls; it->name; it++)
        if (it->asked == 0) failures++, printf("no row asks %s\n", it->name);
}
