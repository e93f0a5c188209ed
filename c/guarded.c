/* Calls whose slices lie against pages that nobody may touch: each slice ends right before such a page, then begins right
   after one. A and B cannot be written to, nor, where a call must be refused, C and the pack buffer. So a read or a store
   outside the slices, or a store where none may be, ends this program. C is held against rules 1 to 7 written out in C,
   everything else against what it was. From the repository's root:

     mkdir -p target
     cc -std=c99 -O2 -Iinclude c/guarded.c crates/hewnspandrel/out/libhewnspandrel.a -o target/guarded && target/guarded

   A sanitizer (-fsanitize=address,undefined) watches this program and the header, not the archive, which is not built with
   one: the pages watch that. */
#define PROGRAM "guarded"
enum { A, B, C, PACK, AREAS };
#include "pages.h"
#include "hewnspandrel.h"

static unsigned long done, refused;

/* A call but for its numbers. */
typedef struct {
    const char *kind;
    size_t m, k, n;
    hewn_operand operands[3];
    size_t lengths[AREAS], need; /* in floats */
    int beta_is_zero;
    uint64_t expected;
} setting;

static void describe(const setting *s) {
    snprintf(what, sizeof what, "%s %zu %zu %zu, A %zu %td %td, B %zu %td %td, C %zu %td %td, floats %zu %zu %zu %zu, expected %d, %s\n",
             s->kind, s->m, s->k, s->n, s->operands[A].base, s->operands[A].rs, s->operands[A].cs, s->operands[B].base,
             s->operands[B].rs, s->operands[B].cs, s->operands[C].base, s->operands[C].rs, s->operands[C].cs, s->lengths[A],
             s->lengths[B], s->lengths[C], s->lengths[PACK], (int)s->expected, at_end ? "at a page's end" : "at a page's start");
}

static size_t place(hewn_operand l, size_t i, size_t j) {
    return (size_t)((ptrdiff_t)l.base + (ptrdiff_t)i * l.rs + (ptrdiff_t)j * l.cs);
}

/* Four ways for a matrix to lie: by rows, by columns, by rows from the last up and apart, by columns backwards and apart. */
static hewn_operand laid(int way, size_t rows, size_t columns) {
    ptrdiff_t r = (ptrdiff_t)rows, c = (ptrdiff_t)columns;
    hewn_operand by_rows = {0, c, 1}, by_columns = {0, 1, r};
    hewn_operand up = {rows == 0 ? 0 : (rows - 1) * (columns + 1), -(c + 1), 1};
    hewn_operand back = {columns == 0 ? 0 : (columns - 1) * 2 * rows, 2, -2 * r};
    return way == 0 ? by_rows : way == 1 ? by_columns : way == 2 ? up : back;
}

/* The elements that a slice must have for all places to be inside. */
static size_t elements(hewn_operand l, size_t rows, size_t columns) {
    size_t most = 0;
    for (size_t i = 0; i < rows; i++)
        for (size_t j = 0; j < columns; j++)
            if (place(l, i, j) >= most) most = place(l, i, j) + 1;
    return most;
}

static uint64_t state = 1;

/* Whole numbers from -1000 to 1000, the same in each run. */
static int next(void) {
    state = state * 6364136223846793005u + 1442695040888963407u;
    return (int)((state >> 33) % 2001) - 1000;
}

#define REAL float
#define NUMBER hewn_complex32
#define WIDTH 1
#define NAME(x) s_##x
#define CALL hewn_sgemm
#include "guarded_kind.h"

#define REAL double
#define NUMBER hewn_complex64
#define WIDTH 1
#define NAME(x) d_##x
#define CALL hewn_dgemm
#include "guarded_kind.h"

#define REAL float
#define NUMBER hewn_complex32
#define WIDTH 2
#define NAME(x) c_##x
#define CALL hewn_cgemm
#include "guarded_kind.h"

#define REAL double
#define NUMBER hewn_complex64
#define WIDTH 2
#define NAME(x) z_##x
#define CALL hewn_zgemm
#include "guarded_kind.h"

typedef struct {
    const char *name;
    void (*run)(const setting *);
    hewn_length (*need)(size_t, size_t, size_t);
    size_t width;
} kind;

/* The call with one thing changed, where that makes it the given refusal. */
static void fault(const kind *x, setting s, uint64_t expected) {
    size_t m = s.m, k = s.k, n = s.n;
    int empty = m == 0 || n == 0;
    s.expected = expected;
    switch (expected) {
    case HEWN_TOO_LARGE: s.k = 65537; break;
    case HEWN_OUTSIDE_C: if (empty) return; s.lengths[C] -= x->width; break;
    case HEWN_COLLIDES_C:
        if (empty || (m == 1 && n == 1)) return;
        if (n > 1) s.operands[C].cs = 0; else s.operands[C].rs = 0;
        break;
    case HEWN_OUTSIDE_A: if (empty || k == 0) return; s.lengths[A] -= x->width; break;
    case HEWN_OUTSIDE_B: if (empty || k == 0) return; s.lengths[B] -= x->width; break;
    default: if (empty || k == 0) return; s.lengths[PACK] = s.need - 1; break;
    }
    x->run(&s);
}

/* The call with each stride in turn too far: refused along two or more entries, else done. */
static void too_far(const kind *x, setting s, ptrdiff_t stride) {
    const size_t entries[3][2] = {{s.m, s.k}, {s.k, s.n}, {s.m, s.n}};
    for (int which = A; which <= C; which++)
        for (int column = 0; column < 2; column++) {
            setting changed = s;
            *(column ? &changed.operands[which].cs : &changed.operands[which].rs) = stride;
            changed.expected = entries[which][column] >= 2 ? HEWN_TOO_FAR : HEWN_DONE;
            x->run(&changed);
        }
}

static void shape(const kind *x, size_t m, size_t k, size_t n) {
    static const ptrdiff_t far[] = {2147483649, -2147483649, (ptrdiff_t)1 << 40, PTRDIFF_MAX, PTRDIFF_MIN};
    for (int ways = 0; ways < 16; ways++) {
        int wa = ways / 4, wb = ways % 4;
        setting s = {x->name, m, k, n, {laid(wa, m, k), laid(wb, k, n), laid((wa + wb) % 4, m, n)}, {0}, 0, ways % 2, HEWN_DONE};
        size_t lone = x->width == 2 && ways % 3 == 0;
        s.lengths[A] = elements(s.operands[A], m, k) * x->width + lone;
        s.lengths[B] = elements(s.operands[B], k, n) * x->width + lone;
        s.lengths[C] = elements(s.operands[C], m, n) * x->width + lone;
        s.need = x->need(m, k, n).elements * x->width;
        s.lengths[PACK] = s.need + (ways % 5 == 0 ? 3 : 0);
        x->run(&s);
        too_far(x, s, far[ways % 5]);
        fault(x, s, HEWN_TOO_LARGE);
        for (uint64_t expected = HEWN_OUTSIDE_C; expected <= HEWN_PACK_SHORT; expected++) fault(x, s, expected);
    }
}

int main(void) {
    static const kind kinds[] = {
        {"sgemm", s_run, hewn_sgemm_need, 1},
        {"dgemm", d_run, hewn_dgemm_need, 1},
        {"cgemm", c_run, hewn_cgemm_need, 2},
        {"zgemm", z_run, hewn_zgemm_need, 2},
    };
    /* zero sizes, ragged tiles, and both sides of the chunks of depth, rows and columns */
    static const size_t shapes[][3] = {
        {0, 3, 2}, {3, 0, 2}, {2, 3, 0}, {1, 1, 1}, {1, 7, 1}, {2, 3, 4}, {4, 1, 4}, {5, 4, 3}, {8, 8, 8}, {9, 5, 7},
        {13, 17, 11}, {4, 256, 2}, {5, 257, 3}, {2, 513, 5}, {32, 3, 9}, {33, 5, 2}, {64, 2, 4}, {65, 3, 9}, {3, 2, 513}, {2, 1, 1025},
    };
    map();
    for (at_end = 0; at_end < 2; at_end++)
        for (size_t which = 0; which < sizeof kinds / sizeof *kinds; which++)
            for (size_t x = 0; x < sizeof shapes / sizeof *shapes; x++)
                shape(&kinds[which], shapes[x][0], shapes[x][1], shapes[x][2]);
    printf("guarded: %lu calls done and %lu refused, against guard pages on either side\n", done, refused);
    return 0;
}
