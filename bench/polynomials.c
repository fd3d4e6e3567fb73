/* The polynomials of the benchmark, by a small generator with a fixed start (splitmix64). */
#include <stdio.h>
#include <string.h>

#include "bench.h"

const unsigned primes[PRIMES] = {2, 7, 31, 127, 251};
const char *const kinds[KINDS] = {"random", "linear", "powers"};
const unsigned lower_degrees[LOWER] = {8, 16};
polynomial polynomials[PRIMES][KINDS][EACH], lower[LOWER][PRIMES][KINDS][EACH], without_run[PRIMES][EACH], with_run[PRIMES][EACH];

static uint64_t state = 20050101;

static unsigned below(unsigned bound)
{
    uint64_t z = state += 0x9E3779B97F4A7C15u;
    z = (z ^ (z >> 30)) * 0xBF58476D1CE4E5B9u;
    z = (z ^ (z >> 27)) * 0x94D049BB133111EBu;
    return (unsigned)((z ^ (z >> 31)) % bound);
}

/* A random monic polynomial of the degree d. */
static void some_monic(unsigned *g, unsigned d, unsigned n)
{
    for (unsigned i = 0; i < d; i++)
        g[i] = below(n);
    g[d] = 1;
}

/* f, which is of degree *top, times the monic g of degree d. */
static void multiply(unsigned *f, unsigned *top, const unsigned *g, unsigned d, unsigned n)
{
    unsigned product[DEGREE + 1] = {0};
    for (unsigned i = 0; i <= *top; i++)
        for (unsigned j = 0; j <= d; j++)
            product[i + j] = (product[i + j] + f[i] * g[j]) % n;
    *top += d;
    memcpy(f, product, sizeof product);
}

/* Factors of degree 1 only. */
static void make_linear(unsigned *f, unsigned degree, unsigned n)
{
    unsigned top = 0, g[2];
    f[0] = 1;
    while (top < degree) {
        some_monic(g, 1, n);
        multiply(f, &top, g, 1, n);
    }
}

/* One to four powers: g to the k, of degrees that add to the degree. */
static void make_powers(unsigned *f, unsigned degree, unsigned n)
{
    unsigned top = 0, g[DEGREE + 1], count = 1 + below(4);
    f[0] = 1;
    for (unsigned i = 1; i <= count; i++) {
        unsigned room = i == count ? degree - top : (degree - top) / 2;
        unsigned d = 1 + below(room < 8 ? room : 8), k = room / d;
        some_monic(g, d, n);
        for (unsigned j = 0; j < k; j++)
            multiply(f, &top, g, d, n);
    }
    some_monic(g, degree - top, n);
    multiply(f, &top, g, degree - top, n);
}

/* 0x03 and a byte up to the prime 13, 0x05 and two bytes, low byte first, from 17 on. */
static uint8_t *write_coefficient(uint8_t *at, unsigned prime, unsigned index, unsigned value)
{
    int wide = prime > 13;
    *at++ = wide ? 0x05 : 0x03, *at++ = (uint8_t)index, *at++ = (uint8_t)(value % 256);
    if (wide)
        *at++ = (uint8_t)(value / 256);
    return at;
}

static void write_sheet(polynomial *f, int run)
{
    uint8_t *at = f->sheet;
    *at++ = 0x01, *at++ = (uint8_t)f->prime, *at++ = 0x02, *at++ = (uint8_t)f->degree;
    for (unsigned i = 0; i < f->degree; i++)
        if (f->coefs[i] != 0)
            at = write_coefficient(at, f->prime, i, f->coefs[i]);
    if (run)
        *at++ = 0x04;
    *at++ = 0x0F;
    f->sheet_length = (size_t)(at - f->sheet);
}

/* A line of 223 bytes at most, for an earlier prime. */
static void write_line(polynomial *f)
{
    char text[LINE_BYTES + 1];
    int at = sprintf(text, "%u:", f->prime);
    for (unsigned i = 1; i < DEGREE; i++)
        text[at++] = '(';
    at += sprintf(text + at, "x+%u", f->coefs[DEGREE - 1]);
    for (unsigned i = DEGREE - 1; i > 0; i--)
        at += sprintf(text + at, ")*x+%u", f->coefs[i - 1]);
    memcpy(f->line, text, (size_t)at);
    f->line_length = (size_t)at;
}

static void make(polynomial *f, unsigned prime, unsigned degree, unsigned kind)
{
    unsigned n = prime * prime;
    f->prime = prime;
    f->degree = degree;
    if (kind == 0)
        some_monic(f->coefs, degree, n);
    else if (kind == 1)
        make_linear(f->coefs, degree, n);
    else
        make_powers(f->coefs, degree, n);
    write_sheet(f, 0);
    if (degree == DEGREE && prime <= primes[EARLIER_PRIMES - 1])
        write_line(f);
}

/* The i-th random polynomial, its constant coefficient larger by 1 where p divides it. */
static void make_with_run(unsigned p, unsigned i)
{
    polynomial f = polynomials[p][0][i];
    if (f.coefs[0] % f.prime == 0)
        f.coefs[0]++;
    without_run[p][i] = with_run[p][i] = f;
    write_sheet(&without_run[p][i], 0);
    write_sheet(&with_run[p][i], 1);
}

static void make_all(polynomial all[PRIMES][KINDS][EACH], unsigned degree)
{
    for (unsigned p = 0; p < PRIMES; p++)
        for (unsigned kind = 0; kind < KINDS; kind++)
            for (unsigned i = 0; i < EACH; i++)
                make(&all[p][kind][i], primes[p], degree, kind);
}

void make_polynomials(void)
{
    make_all(polynomials, DEGREE);
    for (unsigned p = 0; p < PRIMES; p++)
        for (unsigned i = 0; i < EACH; i++)
            make_with_run(p, i);
    for (unsigned l = 0; l < LOWER; l++)
        make_all(lower[l], lower_degrees[l]);
}
