/* Hewnspandrel: C = alpha A B + beta C for real and complex matrices, and panels read from files, proved in Rattle. The bits
   of a product are those of the Rust crate matrixmultiply 0.3.11 where that fuses nothing, which is tested. For x86-64
   Linux, C99 or C++.

   A (m by k), B (k by n) and C (m by n) are slices: a pointer and the number of floats behind it. An operand says where
   place (0,0) lies and how far it is from one row and from one column to the next, in whole elements; place (i,j) is the
   element base + i rs + j cs. A complex element is two neighbouring floats, real part first, and a lone last float of an
   odd slice is never touched. Lengths of slices, the pack buffer's too, count floats, for the complex kinds as well.

   CAUTION: the sizes come in the order m, k, n, depth in the middle. BLAS has m, n, k. All three have one type, so no
   compiler tells you.

   Answers of the four calls. The first that applies is given, and a refused call has stored nothing, in C or in pack:
     0  HEWN_DONE         done
     1  HEWN_TOO_LARGE    m, k or n is above 65,536
     2  HEWN_TOO_FAR      a stride of A, B or C along an axis of two or more entries is above 2,147,483,648 in magnitude
     3  HEWN_OUTSIDE_C    some place of C is outside C's slice
     4  HEWN_COLLIDES_C   two different places of C are the same element
     5  HEWN_OUTSIDE_A    some place of A is outside A's slice
     6  HEWN_OUTSIDE_B    some place of B is outside B's slice
     7  HEWN_PACK_SHORT   the pack buffer is shorter than the need
   In 2 the entries are m for A's and C's row strides, k for A's column and B's row stride, n for B's and C's column
   strides. The sizes alone decide: with m = 0 and k = 2, A's column stride is judged, though A has no element. A stride
   along one entry or none is not stepped along, and may be anything.
   After 1 and 2, a call with m or n zero is done and nothing more is looked at. After 4, a call with k zero makes C
   beta C and is done; A, B and the pack buffer are not looked at. Where beta is zero, old C is ignored.

   A panel file is the mark IVP, a version (1), a byte for the kind (1 float, 2 double), rows, columns, and the elements row
   by row; version, rows and columns have 16 bits, and all numbers are little-endian. A read that is done fills the first
   rows times columns of the numbers and leaves the rest; a NaN is read as a NaN, whose pattern may be another. Answers of a
   read, the first that applies; a refused one has stored nothing:
     0  HEWN_DONE            done
    21  HEWN_FILE_SHORT      the file has fewer than ten bytes
    22  HEWN_WRONG_MARK      the file does not begin with the mark IVP
    23  HEWN_UNKNOWN_VERSION the file's version is not known
    24  HEWN_WRONG_KIND      the file's kind is not the one asked for
    25  HEWN_WRONG_LENGTH    the file's length is not what its rows and columns say
    26  HEWN_NO_ROOM         the destination is shorter than the panel
   A panel is numbers with a shape, rows by columns; place (row, column) is the number row columns + column. The question
   for its element is answered 0, or
    30  HEWN_OUTSIDE_PANEL   the place is outside the panel's shape or beyond its numbers

   What the caller owes, and nobody checks:
     - each pointer is valid for as many floats, or bytes of a file, as its length says, and aligned as they are; where the
       length is 0, any pointer will do, NULL too;
     - C and the pack buffer overlap nothing else of the call, nor each other; A and B may overlap or be one slice; a file
       and the numbers that it is read into do not overlap;
     - nobody else writes to the slices of a call, or reads C, the pack buffer or the numbers read into, while it runs;
     - the thread's floating-point environment is the ordinary one: rounding to nearest, subnormal numbers kept, no exception
       trapped. In another one C may get other bits. A program that gcc or clang links with -ffast-math has another one from
       its start: it flushes subnormal numbers to zero.
   Any sizes, strides, bases, bytes and places get an answer.

   After a call that is done, the first need elements of the pack buffer may hold anything; the rest is unchanged, and all
   of it where m, k or n is zero. */
#ifndef HEWNSPANDREL_H
#define HEWNSPANDREL_H

#include <stddef.h>
#include <stdint.h>

#ifdef __cplusplus
extern "C" {
#endif

/* The version of this interface. A program that includes this header links only with an archive of the same version: each
   file that includes it refers to the archive's function of that name. */
#define HEWN_INTERFACE 3

#define HEWN_PASTE(x, y) x##y
#define HEWN_NAMED(x, y) HEWN_PASTE(x, y)

uint64_t HEWN_NAMED(hewn_interface_, HEWN_INTERFACE)(void);

#ifdef __GNUC__
/* `used` keeps it from the compiler, `retain` from a linker that collects sections. */
#ifdef __has_attribute
#if __has_attribute(retain)
__attribute__((retain))
#endif
#endif
__attribute__((used))
static uint64_t (*const hewn_interface_needed)(void) = HEWN_NAMED(hewn_interface_, HEWN_INTERFACE);
#endif

typedef struct { size_t base; ptrdiff_t rs; ptrdiff_t cs; } hewn_operand;
typedef struct { float re; float im; } hewn_complex32;
typedef struct { double re; double im; } hewn_complex64;

/* The need of a call: answer 0 and the number of elements (two floats each for the complex kinds) that the pack buffer
   must have, or answer 1 (a size is above 65,536) and 0 elements. */
typedef struct { uint64_t answer; size_t elements; } hewn_length;

/* A read: answer 0 and what the file's head says, or the refusal's number and zeros. */
typedef struct { uint64_t answer; uint16_t version; uint16_t rows; uint16_t columns; } hewn_header;

/* An element of a panel: answer 0 and the element, or answer 30 and a NaN. */
typedef struct { uint64_t answer; float element; } hewn_element_f32;
typedef struct { uint64_t answer; double element; } hewn_element_f64;

enum {
    HEWN_DONE = 0,
    HEWN_TOO_LARGE = 1,
    HEWN_TOO_FAR = 2,
    HEWN_OUTSIDE_C = 3,
    HEWN_COLLIDES_C = 4,
    HEWN_OUTSIDE_A = 5,
    HEWN_OUTSIDE_B = 6,
    HEWN_PACK_SHORT = 7,
    HEWN_FILE_SHORT = 21,
    HEWN_WRONG_MARK = 22,
    HEWN_UNKNOWN_VERSION = 23,
    HEWN_WRONG_KIND = 24,
    HEWN_WRONG_LENGTH = 25,
    HEWN_NO_ROOM = 26,
    HEWN_OUTSIDE_PANEL = 30
};

/* What an answer means, in words. */
static inline const char *hewn_answer_text(uint64_t answer) {
    switch (answer) {
    case HEWN_DONE: return "done";
    case HEWN_TOO_LARGE: return "m, k or n is above 65,536";
    case HEWN_TOO_FAR: return "a stride of A, B or C along an axis of two or more entries is above 2,147,483,648 in magnitude";
    case HEWN_OUTSIDE_C: return "a place of C is outside C's slice";
    case HEWN_COLLIDES_C: return "two different places of C are the same element";
    case HEWN_OUTSIDE_A: return "a place of A is outside A's slice";
    case HEWN_OUTSIDE_B: return "a place of B is outside B's slice";
    case HEWN_PACK_SHORT: return "the pack buffer is shorter than the need";
    case HEWN_FILE_SHORT: return "the file has fewer than ten bytes";
    case HEWN_WRONG_MARK: return "the file does not begin with the mark IVP";
    case HEWN_UNKNOWN_VERSION: return "the file's version is not known";
    case HEWN_WRONG_KIND: return "the file's kind is not the one asked for";
    case HEWN_WRONG_LENGTH: return "the file's length is not what its rows and columns say";
    case HEWN_NO_ROOM: return "the destination is shorter than the panel";
    case HEWN_OUTSIDE_PANEL: return "the place is outside the panel's shape or beyond its numbers";
    default: return "no answer of this interface";
    }
}

/* No need is larger, in elements: two floats each for the complex kinds. */
#define HEWN_SGEMM_MAX_NEED 278528
#define HEWN_DGEMM_MAX_NEED 278528
#define HEWN_CGEMM_MAX_NEED 139264
#define HEWN_ZGEMM_MAX_NEED 139264

uint64_t hewn_sgemm(size_t m, size_t k, size_t n, float alpha,
                    const float *a, size_t a_len, hewn_operand la,
                    const float *b, size_t b_len, hewn_operand lb, float beta,
                    float *c, size_t c_len, hewn_operand lc,
                    float *pack, size_t pack_len);

uint64_t hewn_dgemm(size_t m, size_t k, size_t n, double alpha,
                    const double *a, size_t a_len, hewn_operand la,
                    const double *b, size_t b_len, hewn_operand lb, double beta,
                    double *c, size_t c_len, hewn_operand lc,
                    double *pack, size_t pack_len);

uint64_t hewn_cgemm(size_t m, size_t k, size_t n, hewn_complex32 alpha,
                    const float *a, size_t a_len, hewn_operand la,
                    const float *b, size_t b_len, hewn_operand lb, hewn_complex32 beta,
                    float *c, size_t c_len, hewn_operand lc,
                    float *pack, size_t pack_len);

uint64_t hewn_zgemm(size_t m, size_t k, size_t n, hewn_complex64 alpha,
                    const double *a, size_t a_len, hewn_operand la,
                    const double *b, size_t b_len, hewn_operand lb, hewn_complex64 beta,
                    double *c, size_t c_len, hewn_operand lc,
                    double *pack, size_t pack_len);

hewn_length hewn_sgemm_need(size_t m, size_t k, size_t n);
hewn_length hewn_dgemm_need(size_t m, size_t k, size_t n);
hewn_length hewn_cgemm_need(size_t m, size_t k, size_t n);
hewn_length hewn_zgemm_need(size_t m, size_t k, size_t n);

hewn_header hewn_read_f32(const uint8_t *file, size_t file_len, float *numbers, size_t numbers_len);
hewn_header hewn_read_f64(const uint8_t *file, size_t file_len, double *numbers, size_t numbers_len);

hewn_element_f32 hewn_panel_element_f32(const float *numbers, size_t numbers_len, uint16_t rows, uint16_t columns,
                                        size_t row, size_t column);
hewn_element_f64 hewn_panel_element_f64(const double *numbers, size_t numbers_len, uint16_t rows, uint16_t columns,
                                        size_t row, size_t column);

#ifdef __cplusplus
}
#endif

#endif
