/* Compares an answer's parts with what FLINT finds modulo p, a copy with the answer, and the sheet of a line with the one that was made. */
#include <string.h>

#include "bench.h"

enum { PART = 0x11, FACTOR = 0x12, COEFFICIENT = 0x03, WIDE_COEFFICIENT = 0x05, END = 0x0F, SOLID = 2 };

static size_t command_length(uint8_t command)
{
    switch (command) {
    case PART:
    case 0x13:
    case WIDE_COEFFICIENT:
        return 4;
    case FACTOR:
    case COEFFICIENT:
    case 0x14:
        return 3;
    case END:
        return 1;
    default:
        return 2;
    }
}

void make_bar(nmod_poly_t bar, const polynomial *f)
{
    nmod_poly_init(bar, f->prime);
    for (unsigned i = 0; i <= DEGREE; i++)
        nmod_poly_set_coeff_ui(bar, i, f->coefs[i] % f->prime);
}

/* The bar of the factor whose command stands at `at`. */
static void read_bar(nmod_poly_t bar, const uint8_t *at, unsigned prime)
{
    nmod_poly_zero(bar);
    nmod_poly_set_coeff_ui(bar, at[1], 1);
    for (at += 3; *at == COEFFICIENT || *at == WIDE_COEFFICIENT; at += command_length(*at))
        nmod_poly_set_coeff_ui(bar, at[1], (*at == COEFFICIENT ? at[2] : at[2] + 256u * at[3]) % prime);
}

/* Whether G to the m is among the factors, for the part at `at`. A solid part's factor has the bar G^m, every other part's first one G.
   The factor that is found is struck out. */
static int strike_out(nmod_poly_factor_t factors, const uint8_t *at, unsigned prime)
{
    nmod_poly_t bar, power;
    int found = 0;
    nmod_poly_init(bar, prime);
    nmod_poly_init(power, prime);
    read_bar(bar, at + 4, prime);
    for (slong i = 0; i < factors->num && !found; i++) {
        nmod_poly_pow(power, factors->p + i, at[3] == SOLID ? at[2] : 1);
        found = factors->exp[i] == at[2] && nmod_poly_degree(factors->p + i) == at[1] && nmod_poly_equal(power, bar);
        if (found)
            factors->exp[i] = 0;
    }
    nmod_poly_clear(bar);
    nmod_poly_clear(power);
    return found;
}

int agrees(const polynomial *f, const uint8_t *answer, size_t length)
{
    nmod_poly_t bar;
    nmod_poly_factor_t factors;
    slong parts = 0;
    int all = 1;
    make_bar(bar, f);
    nmod_poly_factor_init(factors);
    nmod_poly_factor(factors, bar);
    for (size_t place = 0; place < length; place += command_length(answer[place]))
        if (answer[place] == PART) {
            parts++;
            all = all && strike_out(factors, answer + place, f->prime);
        }
    all = all && parts == factors->num;
    nmod_poly_factor_clear(factors);
    nmod_poly_clear(bar);
    return all;
}

/* How many factors of each degree and times an answer has. */
static void count_pairs(const uint8_t *answer, size_t length, unsigned pairs[DEGREE + 1][DEGREE + 1])
{
    for (size_t place = 0; place < length; place += command_length(answer[place]))
        if (answer[place] == FACTOR)
            pairs[answer[place + 1]][answer[place + 2]]++;
}

int copy_agrees(const polynomial *f, const uint8_t *copy, size_t length)
{
    uint8_t answer[KUZHMADER_AREA];
    unsigned pairs[DEGREE + 1][DEGREE + 1] = {0};
    size_t at = 4;
    count_pairs(answer, kuzhmader_split(f->sheet, f->sheet_length, answer, KUZHMADER_AREA).count, pairs);
    for (unsigned degree = 1; degree <= DEGREE; degree++)
        for (unsigned times = 1; times <= DEGREE; times++)
            for (; pairs[degree][times] > 0; pairs[degree][times]--, at += 3)
                if (at + 3 >= length || copy[at] != FACTOR || copy[at + 1] != degree || copy[at + 2] != times)
                    return 0;
    return memcmp(copy, answer, 4) == 0 && at + 1 == length && copy[at] == END;
}

int lines_that_agree(void)
{
    uint8_t sheet[KUZHMADER_AREA];
    int agreed = 0;
    for (const polynomial *f = &polynomials[0][0][0]; f < &polynomials[0][0][0] + EARLIER_PRIMES * KINDS * EACH; f++) {
        kuzhmader_outcome typed = kuzhmader_typed(f->line, f->line_length, sheet, KUZHMADER_AREA);
        agreed += typed.count == f->sheet_length && memcmp(sheet, f->sheet, typed.count) == 0;
    }
    return agreed;
}
