/* Panel files and panels whose slices lie against pages that nobody may touch, as guarded.c has them: the file cannot be
   written to, nor, where a read must be refused, the numbers. From the repository's root:

     mkdir -p target
     cc -std=c99 -O2 -Iinclude c/panels.c crates/hewnspandrel/out/libhewnspandrel.a -o target/panels && target/panels */
#define PROGRAM "panels"
enum { BYTES, NUMBERS, AREAS };
#include "pages.h"
#include "hewnspandrel.h"

enum { HEAD = 10 };

static unsigned long done, refused;

typedef struct {
    uint16_t rows, columns;
    size_t spare;   /* numbers that the destination has beyond the panel's */
    uint64_t fault; /* which refusal the file or the destination gives rise to */
    size_t by;      /* bytes that a short file lacks of a head, or that one of wrong length has too many; SIZE_MAX is one too few */
} setting;

static void describe(const setting *s, int kind, const size_t *bytes) {
    snprintf(what, sizeof what, "kind %d, %u by %u, %zu bytes of file, %zu of numbers, expected %d, %s\n", kind, s->rows, s->columns,
             bytes[BYTES], bytes[NUMBERS], (int)s->fault, at_end ? "at a page's end" : "at a page's start");
}

static void put_head(unsigned char *file, const setting *s, int kind) {
    unsigned head[HEAD] = {
        'I', 'V', s->fault == HEWN_WRONG_MARK ? 'Q' : 'P', s->fault == HEWN_UNKNOWN_VERSION ? 2 : 1, 0,
        s->fault == HEWN_WRONG_KIND ? 3 - kind : kind, s->rows & 255, s->rows >> 8, s->columns & 255, s->columns >> 8,
    };
    for (int x = 0; x < HEAD; x++) file[x] = (unsigned char)head[x];
}

/* The next row or column to look at; the middle of a long side is left out. */
static size_t after(size_t x, size_t side) {
    return x == 20 && side > 40 ? side - 20 : x + 1;
}

#define REAL float
#define KIND 1
#define READ hewn_read_f32
#define ELEMENT hewn_panel_element_f32
#define FOUND hewn_element_f32
#define NAME(x) x##_f32
#include "panels_kind.h"

#define REAL double
#define KIND 2
#define READ hewn_read_f64
#define ELEMENT hewn_panel_element_f64
#define FOUND hewn_element_f64
#define NAME(x) x##_f64
#include "panels_kind.h"

static void both(setting s) {
    read_f32(&s);
    read_f64(&s);
}

static void shape(uint16_t rows, uint16_t columns) {
    size_t count = (size_t)rows * columns;
    setting s = {rows, columns, 0, HEWN_DONE, 0};
    for (s.spare = 0; s.spare < 3; s.spare++) both(s);
    s.spare = 0;
    for (s.fault = HEWN_FILE_SHORT; s.fault <= HEWN_NO_ROOM; s.fault++) {
        if (s.fault == HEWN_NO_ROOM && count == 0) continue;
        for (s.by = 1; s.by <= (s.fault == HEWN_FILE_SHORT ? HEAD : 1); s.by++) both(s);
        s.by = SIZE_MAX;
        if (s.fault == HEWN_WRONG_LENGTH && count > 0) both(s);
    }
    s.fault = HEWN_DONE;
    for (size_t numbers = count > 2 ? count - 2 : 0; numbers < count + 2; numbers++) {
        elements_f32(&s, numbers);
        elements_f64(&s, numbers);
    }
}

int main(void) {
    static const uint16_t shapes[][2] = {
        {0, 0}, {0, 3}, {3, 0}, {1, 1}, {1, 2}, {2, 1}, {2, 3}, {3, 2}, {7, 5}, {17, 31}, {1, 300}, {300, 1}, {258, 3},
        {65535, 1}, {1, 65535},
    };
    map();
    for (at_end = 0; at_end < 2; at_end++)
        for (size_t x = 0; x < sizeof shapes / sizeof *shapes; x++) shape(shapes[x][0], shapes[x][1]);
    largest_f32();
    largest_f64();
    printf("panels: %lu reads and elements done and %lu refused, against guard pages on either side\n", done, refused);
    return 0;
}
