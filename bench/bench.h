/* What the files of the benchmark share: the polynomials, the comparisons with FLINT, with the answers and with a walk, the stack. */
#ifndef BENCH_H
#define BENCH_H

#include <flint/nmod_poly.h>

#include "kuzhmader.h"

#define DEGREE KUZHMADER_LIMIT
#define SHEET_BYTES (6 + 4 * DEGREE)
#define LINE_BYTES 255
#define PRIMES 5
#define EARLIER_PRIMES 2 /* the first of them, with which checksums of before request 5 are compared, and which alone have lines */
#define KINDS 3
#define LOWER 2 /* degrees below the greatest, for the growth with the degree */
#define EACH 200
#define RUN_LIMIT 65535

/* A monic polynomial modulo p², constant first, its sheet, and, where its degree is 32, a typed line of it: p:((..(x+c)*x+c)*x+..)*x+c. From p = 31 on such
   a line would not fit 255 bytes, and there is none. A coefficient is below 63,001, so a product of two and one more is below 2^32. */
typedef struct {
    unsigned prime;
    unsigned degree;
    unsigned coefs[DEGREE + 1];
    uint8_t sheet[SHEET_BYTES];
    size_t sheet_length;
    uint8_t line[LINE_BYTES];
    size_t line_length;
} polynomial;

extern const unsigned primes[PRIMES];
extern const char *const kinds[KINDS];

/* The polynomials of all kinds for all primes, those of the earlier primes first: the same ones in every run. */
extern polynomial polynomials[PRIMES][KINDS][EACH];
/* The same kinds of the degrees 8 and 16. */
extern const unsigned lower_degrees[LOWER];
extern polynomial lower[LOWER][PRIMES][KINDS][EACH];
/* The random ones again, with a constant coefficient that p does not divide, first without 0x04 and then with it. */
extern polynomial without_run[PRIMES][EACH], with_run[PRIMES][EACH];
void make_polynomials(void);

/* The bar of f for FLINT; `bar` is not initialised before. */
void make_bar(nmod_poly_t bar, const polynomial *f);

/* Whether an answer's parts are the powers of irreducible polynomials that FLINT finds in the bar. */
int agrees(const polynomial *f, const uint8_t *answer, size_t length);

/* Whether a copy has the degrees and times of the answer's factors, sorted. */
int copy_agrees(const polynomial *f, const uint8_t *copy, size_t length);

/* The run length of f, by a walk of at most RUN_LIMIT pulses; 0 if it is longer. The second takes its multiples of f from a table, and adds bytes: for the
   earlier primes only, since a table for a large modulus would take longer than the walk. */
unsigned plain_walk(const polynomial *f);
unsigned table_walk(const polynomial *f);

/* Whether an answer's run length is that of a walk. */
int run_agrees(const polynomial *f, const uint8_t *answer, size_t length);

/* How many of the polynomials with a line have the sheet that it gives, byte for byte. */
int lines_that_agree(void);

/* Bytes of stack that splitting all polynomials, with 0x04 too, and reading all answers, touches at most; copying them; and typed lines, theirs and those
   with as many brackets as a line holds, for the least prime and for the greatest. */
size_t stack_of_answers(void);
size_t stack_of_copies(void);
size_t stack_of_lines(void);

#endif
