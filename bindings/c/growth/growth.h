/*
 * Measures how the instructions of functions grow with their text. Under callgrind, which counts instructions, each function is
 * called with texts of n and of 2n bytes, of each shape. growth.py runs the program and compares the counts. n is 20,000, or
 * 100,000 if many thousands of variants or ranges are needed, or 2,000 or 4,000 if the function is known to be quadratic. It also
 * prints the stack of each call.
 */
#include <stdint.h>
#include <stdio.h>
#include <string.h>
#include <valgrind/callgrind.h>

#ifndef BYTES
#define BYTES 20000
#endif

/* A shape of texts: a beginning, then pieces, in each of which a number replaces '#'; its n, if it has its own; and whether keys follow. */
static const struct {
    const char *name, *head, *piece;
    size_t bytes, keys;
} shapes[] = {
    {"letters", "", "a", 0, 0},
    {"hyphens", "", "-", 0, 0},
    {"subtags", "de", "-aaaaaaaa", 0, 0},
    {"variants", "de", "-a######", 0, 0},
    {"replaced", "iw", "-heploc", 0, 0},
    {"extension", "de-a", "-bbbbbbbb", 0, 0},
    {"extensions", "de", "-a-bb-A-cc", 0, 0},
    {"singletons", "de", "-#-bb", 0, 0},
    {"keywords", "de-u", "-##-bbb", 0, 0},
    {"letter_keys", "de-u", "-#z-bbb", 0, 0},
    {"one_key", "de-u", "-zz-bbb", 0, 0},
    {"private", "x", "-aaaaaaaa", 0, 0},
    {"singles", "de-x", "-a", 0, 0},
    {"wildcards", "*", "-*-aa", 0, 0},
    {"ranges", "de", ",a-######", 0, 0},
    {"weights", "de", ",a-######;q=0.#", 0, 0},
    {"commas", "", ",", 0, 0},
    {"elements", "de", " ;q=0.1\t, aa-bb", 0, 0},
    {"spaces", "de", " ", 0, 0},
    {"tags", "de", ",x-######", 0, 0},
    {"refused", "de-DE;q=0", ",de;q=0.5", 4000, 0},
    {"prefixed", "sl-rozaj", "-biske", 4000, 0},
    {"few_variants", "de", "-a######", 2000, 0},
    {"attributes", "de-u", "-a######", 4000, 0},
    {"transformed", "de-t-de", "-a######", 4000, 0},
    {"all_keys", "de-u-zz", "-bbbbbbbb", 0, 936},
    {"many_variants", "de", "-a######", 100000, 0},
    {"many_ranges", "de", ",a-######;q=0.#", 100000, 0},
};

/* The text of a call, and another text, which is equal unless a call has changed it. */
#define LONGEST (BYTES > 100000 ? BYTES : 100000)
static char text[2 * LONGEST + 16], other[2 * LONGEST + 16];
static size_t len;
static volatile uint64_t result;

struct function {
    const char *name;
    void (*call)(void);
};

static struct function functions[100];
static size_t function_count;

/* Defines a function, and puts it into the list before main begins. */
#define FUNCTION(name, ...)                                                                                            \
    static void name(void) { __VA_ARGS__; }                                                                            \
    __attribute__((constructor)) static void add_##name(void) { functions[function_count++] = (struct function){#name, name}; }

/* Writes keys of u, which are a letter or digit and then a letter, in descending order. Returns how many bytes they take. */
static size_t write_keys(char *to, size_t keys) {
    for (size_t at = 0; at < keys; at++) {
        size_t key = keys - 1 - at;
        to[3 * at] = '-';
        to[3 * at + 1] = "0123456789abcdefghijklmnopqrstuvwxyz"[key / 26];
        to[3 * at + 2] = (char)('a' + key % 26);
    }
    return 3 * keys;
}

/* Writes a text of a shape with at most a given number of bytes. It has only whole pieces, with numbers in mixed order. */
static size_t write_shape(char *to, size_t shape, size_t most) {
    size_t at = strlen(shapes[shape].head), size = strlen(shapes[shape].piece), keys = shapes[shape].keys;
    memcpy(to, shapes[shape].head, at);
    for (uint32_t turn = 1; at + size + 3 * keys <= most; turn++) {
        uint32_t number = (uint32_t)((uint64_t)turn * 7919 % 1000003);
        for (size_t index = 0; index < size; index++) {
            char byte = shapes[shape].piece[index];
            to[at++] = byte == '#' ? (char)('0' + number % 10) : byte;
            if (byte == '#') number /= 10;
        }
    }
    return at + write_keys(to + at, keys);
}

/* Fills the stack below its caller with a pattern, or returns how many of these bytes were written since. */
#define DEEPEST 65536
static __attribute__((noinline)) size_t stack_used(int is_after) {
    unsigned char room[DEEPEST], *start = room;
    __asm__ volatile("" : "+r"(start) : : "memory");
    if (!is_after) memset(start, 0x5a, DEEPEST);
    __asm__ volatile("" : : "r"(start) : "memory");
    size_t at = 0;
    while (is_after && at < DEEPEST && start[at] == 0x5a) at++;
    return DEEPEST - at;
}

/* Calls a function, lets callgrind print the instructions, and prints the stack. */
static void count_call(struct function function, const char *shape, size_t times) {
    char label[80];
    snprintf(label, sizeof label, "%s %s %zu", function.name, shape, times);
    stack_used(0);
    CALLGRIND_ZERO_STATS;
    function.call();
    CALLGRIND_DUMP_STATS_AT(label);
    printf("%s %zu\n", function.name, stack_used(1));
}

/* Calls each function with each text. Each text is written only once, since that takes longer than most calls. */
static void count(void) {
    static char written[sizeof text];
    for (size_t shape = 0; shape < sizeof shapes / sizeof *shapes; shape++) {
        for (size_t times = 1; times <= 2; times++) {
            len = write_shape(written, shape, times * (shapes[shape].bytes ? shapes[shape].bytes : (size_t)BYTES));
            for (size_t function = 0; function < function_count; function++) {
                memcpy(text, written, len);
                memcpy(other, written, len);
                count_call(functions[function], shapes[shape].name, times);
            }
        }
    }
}
