/* Hewnspandrel from C. From the repository's root:

     (cd crates/hewnspandrel && rt lib --cpu x86-64)
     mkdir -p target
     cc -Iinclude c/example.c crates/hewnspandrel/out/libhewnspandrel.a -o target/example
     target/example */
#include "hewnspandrel.h"
#include <stdio.h>
#include <stdlib.h>
#include <string.h>

int main(void) {
    /* C = A B, row by row */
    const double a[] = {1, 2, 3, 4, 5, 6}; /* 2 by 3 */
    const double b[] = {1, 0, 0, 1, 1, 1}; /* 3 by 2 */
    double c[4];
    hewn_operand la = {0, 3, 1}, lb = {0, 2, 1}, lc = {0, 2, 1};

    /* sizes in the order m, k, n */
    hewn_length need = hewn_dgemm_need(2, 3, 2);
    if (need.answer != HEWN_DONE || need.elements > HEWN_DGEMM_MAX_NEED) return 1;
    double *pack = malloc(need.elements * sizeof *pack);
    if (pack == NULL) return 1;

    uint64_t answer = hewn_dgemm(2, 3, 2, 1.0, a, 6, la, b, 6, lb, 0.0, c, 4, lc, pack, need.elements);
    printf("%s: %g %g %g %g\n", hewn_answer_text(answer), c[0], c[1], c[2], c[3]);
    if (answer != HEWN_DONE || c[0] != 4 || c[1] != 5 || c[2] != 10 || c[3] != 11) return 1;

    /* A of five numbers does not hold 2 by 3: refused, and C stays */
    answer = hewn_dgemm(2, 3, 2, 1.0, a, 5, la, b, 6, lb, 0.0, c, 4, lc, pack, need.elements);
    printf("%s: %g %g %g %g\n", hewn_answer_text(answer), c[0], c[1], c[2], c[3]);
    if (answer != HEWN_OUTSIDE_A || c[0] != 4 || c[1] != 5 || c[2] != 10 || c[3] != 11) return 1;

    /* the second row of A alone: its row stride, 2^40 here, is not stepped along; two rows of it are refused */
    hewn_operand row = {3, (ptrdiff_t)1 << 40, 1};
    answer = hewn_dgemm(1, 3, 2, 1.0, a, 6, row, b, 6, lb, 0.0, c, 4, lc, pack, need.elements);
    printf("%s: %g %g\n", hewn_answer_text(answer), c[0], c[1]);
    if (answer != HEWN_DONE || c[0] != 10 || c[1] != 11) return 1;
    answer = hewn_dgemm(2, 3, 2, 1.0, a, 6, row, b, 6, lb, 0.0, c, 4, lc, pack, need.elements);
    printf("%s\n", hewn_answer_text(answer));
    if (answer != HEWN_TOO_FAR) return 1;
    free(pack);

    /* complex: (1 + 2i)(3 + 4i) times i; A and B may be one slice */
    const float x[] = {1, 2, 3, 4};
    float z[2], zpack[12];
    hewn_operand first = {0, 1, 1}, second = {1, 1, 1};
    hewn_complex32 i = {0, 1}, zero = {0, 0};
    if (2 * hewn_cgemm_need(1, 1, 1).elements > sizeof zpack / sizeof *zpack) return 1;
    answer = hewn_cgemm(1, 1, 1, i, x, 4, first, x, 4, second, zero, z, 2, first, zpack, 12);
    printf("%s: %g%+gi\n", hewn_answer_text(answer), z[0], z[1]);
    if (answer != HEWN_DONE || z[0] != -10 || z[1] != -5) return 1;

    /* a file of 1 by 2 doubles, 0.5 and -2; a destination of one is too short */
    static const uint8_t file[] = "IVP\1\0\2\1\0\2\0\0\0\0\0\0\0\xE0\x3F\0\0\0\0\0\0\0\xC0";
    double numbers[3] = {7, 8, 9};
    hewn_header head = hewn_read_f64(file, 26, numbers, 1);
    printf("%s: %g\n", hewn_answer_text(head.answer), numbers[0]);
    if (head.answer != HEWN_NO_ROOM || numbers[0] != 7) return 1;
    head = hewn_read_f64(file, 26, numbers, 3);
    printf("%s: %u by %u, %g %g %g\n", hewn_answer_text(head.answer), head.rows, head.columns, numbers[0], numbers[1], numbers[2]);
    if (head.answer != HEWN_DONE || numbers[0] != 0.5 || numbers[1] != -2 || numbers[2] != 9) return 1;
    if (hewn_panel_element_f64(numbers, 3, head.rows, head.columns, 0, 1).element != -2) return 1;
    if (hewn_panel_element_f64(numbers, 3, head.rows, head.columns, 1, 0).answer != HEWN_OUTSIDE_PANEL) return 1;

    /* the answers' words */
    static const char *const words[32] = {
        [0] = "done",
        [1] = "m, k or n is above 65,536",
        [2] = "a stride of A, B or C along an axis of two or more entries is above 2,147,483,648 in magnitude",
        [3] = "a place of C is outside C's slice",
        [4] = "two different places of C are the same element",
        [5] = "a place of A is outside A's slice",
        [6] = "a place of B is outside B's slice",
        [7] = "the pack buffer is shorter than the need",
        [21] = "the file has fewer than ten bytes",
        [22] = "the file does not begin with the mark IVP",
        [23] = "the file's version is not known",
        [24] = "the file's kind is not the one asked for",
        [25] = "the file's length is not what its rows and columns say",
        [26] = "the destination is shorter than the panel",
        [30] = "the place is outside the panel's shape or beyond its numbers",
    };
    for (uint64_t x = 0; x < sizeof words / sizeof *words; x++)
        if (strcmp(hewn_answer_text(x), words[x] == NULL ? "no answer of this interface" : words[x]) != 0) return 1;

    /* the largest needs */
    if (hewn_sgemm_need(65536, 65536, 65536).elements != HEWN_SGEMM_MAX_NEED) return 1;
    if (hewn_dgemm_need(65536, 65536, 65536).elements != HEWN_DGEMM_MAX_NEED) return 1;
    if (hewn_cgemm_need(65536, 65536, 65536).elements != HEWN_CGEMM_MAX_NEED) return 1;
    if (hewn_zgemm_need(65536, 65536, 65536).elements != HEWN_ZGEMM_MAX_NEED) return 1;
    if (hewn_zgemm_need(65537, 0, 0).answer != HEWN_TOO_LARGE) return 1;

    /* nothing to do: any pointers */
    return hewn_sgemm(0, 1, 1, 1.0f, NULL, 0, first, NULL, 0, first, 0.0f, NULL, 0, first, NULL, 0) == HEWN_DONE ? 0 : 1;
}
