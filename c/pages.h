/* Slices that lie against pages that nobody may touch. The program that includes this first defines PROGRAM, its name, and
   AREAS, how many slices it lends at a time; `what` says which call is under way. */
#define _DEFAULT_SOURCE
#include <signal.h>
#include <stdio.h>
#include <stdlib.h>
#include <string.h>
#include <sys/mman.h>
#include <unistd.h>

/* Bytes between two guard pages, enough for the largest need and a margin. */
enum { AREA = 4 << 20, MARGIN = 256, MARK = 0xA5 };

static unsigned char *areas[AREAS];
static int at_end; /* the slices end at a guard page, or begin after one */
static char what[400];

static void fail(const char *why) {
    fprintf(stderr, PROGRAM ": %s: %s", why, what);
    exit(1);
}

static void faulted(int number) {
    (void)number;
    static const char why[] = PROGRAM ": a forbidden page was touched: ";
    if (write(2, why, sizeof why - 1) < 0 || write(2, what, strlen(what)) < 0) _exit(3);
    _exit(2);
}

static void map(void) {
    size_t page = (size_t)sysconf(_SC_PAGESIZE);
    for (int which = 0; which < AREAS; which++) {
        unsigned char *start = mmap(NULL, AREA + 2 * page, PROT_NONE, MAP_PRIVATE | MAP_ANONYMOUS, -1, 0);
        if (start == MAP_FAILED) fail("no memory");
        areas[which] = start + page;
    }
    struct sigaction action;
    memset(&action, 0, sizeof action);
    action.sa_handler = faulted;
    sigaction(SIGSEGV, &action, NULL);
    sigaction(SIGBUS, &action, NULL);
}

static void allow(int which, int protection) {
    if (mprotect(areas[which], AREA, protection) != 0) fail("mprotect");
}

/* A slice of so many bytes in its area. Where it has none, it points at the guard page itself. */
static unsigned char *slice(int which, size_t bytes) {
    return at_end ? areas[which] + AREA - bytes : bytes == 0 ? areas[which] - 1 : areas[which];
}

/* The bytes on the side of a slice where no guard page is. */
static unsigned char *margin(int which, size_t bytes) {
    return at_end ? areas[which] + AREA - bytes - MARGIN : areas[which] + bytes;
}

static void margin_kept(int which, size_t bytes) {
    const unsigned char *beside = margin(which, bytes);
    for (size_t x = 0; x < MARGIN; x++)
        if (beside[x] != MARK) fail("a byte beside a slice was changed");
}
