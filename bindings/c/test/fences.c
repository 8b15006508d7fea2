/* Bytes at the edge of a page that must not be touched, so that a call is ended if it reads or writes one byte too many. Windows has
 * blocks of exactly these bytes. */
#define _DEFAULT_SOURCE
#include "rows.h"

#include <stdlib.h>

static struct fence {
    char *first; /* the first byte after the unreadable page before it */
    size_t room; /* the number of bytes up to the unreadable page after it */
    bool is_at_the_end;
} fences[FENCES];

#ifdef _WIN32
static bool is_made(struct fence *it, size_t len) {
    free(it->first);
    it->first = malloc(len ? len : 1);
    it->room = len;
    return it->first != NULL;
}
#else
#include <sys/mman.h>
#include <unistd.h>

static bool is_made(struct fence *it, size_t len) {
    size_t page = (size_t)sysconf(_SC_PAGESIZE), room = (len / page + 1) * page;
    if (it->room >= room) return true;
    if (it->first) munmap(it->first - page, it->room + 2 * page);
    char *all = mmap(NULL, room + 2 * page, PROT_READ | PROT_WRITE, MAP_PRIVATE | MAP_ANONYMOUS, -1, 0);
    if (all == MAP_FAILED || mprotect(all, page, PROT_NONE) != 0 || mprotect(all + page + room, page, PROT_NONE) != 0) return false;
    it->first = all + page;
    it->room = room;
    return true;
}
#endif

char *fenced(int number, size_t len) {
    struct fence *it = &fences[number];
    if (!is_made(it, len)) abort();
    it->is_at_the_end = !it->is_at_the_end;
    return it->is_at_the_end ? it->first + it->room - len : it->first;
}
