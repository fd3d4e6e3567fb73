/* Times `kuzhmader_split` (the whole answer, from bytes to bytes) and FLINT's `nmod_poly_factor` (of the bar, modulo p) in one process on
 * the same polynomials of degree 32, and of the degrees 8 and 16. A polynomial's time is the best of five rounds of repeated calls; a line has the
 * medians over a kind.
 * Then `kuzhmader_copy` beside `kuzhmader_split` on the same ones, and `kuzhmader_typed` on lines of those of 2 and 7, and on two of powers; then the random
 * ones, without 0x04 and with it, and a plain walk to the run length, which is above 65,535 for nearly all of them.
 * Checksums are given for all polynomials, and for those of 2 and 7 alone, which are the ones of before request 5.
 * Ends with status 1 if an answer disagrees with FLINT, a copy with the answer, a run length with the walk or a line with its sheet, or if 64 KiB of
 * stack are not enough, 512 KiB for `kuzhmader_typed`. */
#include <inttypes.h>
#include <stdio.h>
#include <stdlib.h>
#include <string.h>
#include <time.h>

#include "bench.h"

#define ROUNDS 5
#define MOST_CALLS 64
#define ROUND_NS 300000.0
#define STACK_LIMIT (64 * 1024)
#define TYPED_STACK_LIMIT (512 * 1024)

static double now(void)
{
    struct timespec t;
    clock_gettime(CLOCK_MONOTONIC, &t);
    return 1e9 * (double)t.tv_sec + (double)t.tv_nsec;
}

/* Nanoseconds for some calls of the library. */
static double library_calls(kuzhmader_call *call, const polynomial *f, int calls)
{
    static uint8_t area[KUZHMADER_AREA];
    double start = now();
    for (int i = 0; i < calls; i++)
        call(f->sheet, f->sheet_length, area, KUZHMADER_AREA);
    return now() - start;
}

static double split_calls(const polynomial *f, int calls)
{
    return library_calls(kuzhmader_split, f, calls);
}

static double copy_calls(const polynomial *f, int calls)
{
    return library_calls(kuzhmader_copy, f, calls);
}

static double typed_calls(const polynomial *f, int calls)
{
    static uint8_t area[KUZHMADER_AREA];
    double start = now();
    for (int i = 0; i < calls; i++)
        kuzhmader_typed(f->line, f->line_length, area, KUZHMADER_AREA);
    return now() - start;
}

/* Nanoseconds for some calls of FLINT; bar and factor structs are made before the clock starts and cleared after it stops. */
static double flint_calls(const polynomial *f, int calls)
{
    static nmod_poly_factor_t factors[MOST_CALLS];
    nmod_poly_t bar;
    make_bar(bar, f);
    for (int i = 0; i < calls; i++)
        nmod_poly_factor_init(factors[i]);
    double start = now();
    for (int i = 0; i < calls; i++)
        nmod_poly_factor(factors[i], bar);
    double taken = now() - start;
    for (int i = 0; i < calls; i++)
        nmod_poly_factor_clear(factors[i]);
    nmod_poly_clear(bar);
    return taken;
}

/* Nanoseconds for some walks of a kind. */
static double walks(unsigned (*walk)(const polynomial *), const polynomial *f, int calls)
{
    static volatile unsigned run;
    double start = now();
    for (int i = 0; i < calls; i++)
        run = walk(f);
    (void)run;
    return now() - start;
}

static double plain_walks(const polynomial *f, int calls)
{
    return walks(plain_walk, f, calls);
}

static double table_walks(const polynomial *f, int calls)
{
    return walks(table_walk, f, calls);
}

/* Microseconds of one call: the best of the rounds. The first two calls warm up, and settle how many calls make a round. */
static double timed(double (*calls)(const polynomial *, int), const polynomial *f)
{
    double first = calls(f, 2) / 2, best = first;
    int count = first * MOST_CALLS < ROUND_NS ? MOST_CALLS : first > ROUND_NS ? 1 : (int)(ROUND_NS / first);
    for (int round = 0; round < ROUNDS; round++) {
        double one = calls(f, count) / count;
        best = one < best ? one : best;
    }
    return best / 1000;
}

static int by_size(const void *a, const void *b)
{
    double x = *(const double *)a, y = *(const double *)b;
    return (x > y) - (x < y);
}

static double median(double *times)
{
    qsort(times, EACH, sizeof *times, by_size);
    return (times[EACH / 2 - 1] + times[EACH / 2]) / 2;
}

/* Two calls of any sort on the polynomials of a kind, in turn. */
static void time_kind(const polynomial *f, const char *kind, double (*calls)(const polynomial *, int), double (*beside)(const polynomial *, int))
{
    static double first[EACH], second[EACH];
    for (int i = 0; i < EACH; i++) {
        first[i] = timed(calls, f + i);
        second[i] = timed(beside, f + i);
    }
    double one = median(first), other = median(second);
    printf("%5u  %-8s %12.1f %12.1f %8.2f   (slowest %.1f and %.1f)\n", f->prime, kind, one, other, one / other, first[EACH - 1], second[EACH - 1]);
    fflush(stdout);
}

static void time_kinds(const char *names, polynomial all[PRIMES][KINDS][EACH], unsigned count, double (*calls)(const polynomial *, int),
                       double (*beside)(const polynomial *, int))
{
    printf("prime  kind  %s    ratio   medians of %d polynomials of degree %u\n", names, EACH, all[0][0][0].degree);
    for (unsigned p = 0; p < count; p++)
        for (unsigned kind = 0; kind < KINDS; kind++)
            time_kind(all[p][kind], kinds[kind], calls, beside);
}

/* What 0x04 costs: medians of a split without it and with it, of what the second takes more, and of the walks; the one by a table is for the earlier primes. */
static void time_runs(unsigned p)
{
    static double without[EACH], with[EACH], more[EACH], plain[EACH], table[EACH];
    int by_table = p < EARLIER_PRIMES;
    int within = 0;
    for (int i = 0; i < EACH; i++) {
        without[i] = timed(split_calls, &without_run[p][i]);
        with[i] = timed(split_calls, &with_run[p][i]);
        more[i] = with[i] - without[i];
        plain[i] = timed(plain_walks, &with_run[p][i]);
        table[i] = by_table ? timed(table_walks, &with_run[p][i]) : 0;
        within += plain_walk(&with_run[p][i]) != 0;
    }
    double shorter = median(without), longer = median(with), run = median(more);
    printf("%5u  %13.1f %12.1f %12.1f %12.1f ", primes[p], shorter, longer, run, median(plain));
    if (by_table)
        printf("%12.1f", median(table));
    else
        printf("%12s", "-");
    printf("   (slowest run %.1f; %d of %d up to %d)\n", more[EACH - 1], within, EACH, RUN_LIMIT);
    fflush(stdout);
}

/* A line of up to 255 bytes that asks for much, as many powers of degree 32 as fit; it is turned back only when all are worked out, since their sum is not
   monic. */
static void time_powers(const char *first, const char *power)
{
    static polynomial f;
    int powers = 0;
    memcpy(f.line, first, strlen(first));
    for (f.line_length = strlen(first); f.line_length + strlen(power) <= LINE_BYTES; f.line_length += strlen(power), powers++)
        memcpy(f.line + f.line_length, power, strlen(power));
    printf("typed µs, %s and %d times %s, %zu bytes: %.1f\n", first, powers, power, f.line_length, timed(typed_calls, &f));
}

/* Whether all answers or copies agree, `each` of them for a prime. The checksum of their bytes (FNV-1a) tells two builds apart; that of the earlier primes,
   which come first, is also given alone. */
static int compared(const char *what, kuzhmader_call *call, const polynomial *f, int each, int (*good)(const polynomial *, const uint8_t *, size_t))
{
    uint8_t area[KUZHMADER_AREA];
    uint64_t checksum = 0xCBF29CE484222325u, earlier = 0;
    int agreed = 0;
    for (int i = 0; i < PRIMES * each; i++) {
        kuzhmader_outcome outcome = call(f[i].sheet, f[i].sheet_length, area, KUZHMADER_AREA);
        for (size_t k = 0; k < outcome.count; k++)
            checksum = (checksum ^ area[k]) * 0x100000001B3u;
        agreed += outcome.number == KUZHMADER_DONE && good(f + i, area, outcome.count);
        if (i + 1 == EARLIER_PRIMES * each)
            earlier = checksum;
    }
    printf("%s: %d of %d, checksum %016" PRIx64 ", of the primes 2 and 7 alone %016" PRIx64 "\n", what, agreed, PRIMES * each, checksum, earlier);
    return agreed == PRIMES * each;
}

int main(void)
{
    make_polynomials();
    int good = compared("parts that agree with FLINT " FLINT_VERSION, kuzhmader_split, &polynomials[0][0][0], KINDS * EACH, agrees);
    for (unsigned l = 0; l < LOWER; l++)
        good = compared("the same of lower degree", kuzhmader_split, &lower[l][0][0][0], KINDS * EACH, agrees) && good;
    good = compared("run lengths that agree with a walk", kuzhmader_split, &with_run[0][0], EACH, run_agrees) && good;
    good = compared("copies that agree with the answers", kuzhmader_copy, &polynomials[0][0][0], KINDS * EACH, copy_agrees) && good;
    int lines = lines_that_agree();
    printf("typed lines that agree with their sheets: %d of %d\n", lines, EARLIER_PRIMES * KINDS * EACH);
    time_kinds("    library µs     FLINT µs", polynomials, PRIMES, split_calls, flint_calls);
    for (unsigned l = 0; l < LOWER; l++)
        time_kinds("    library µs     FLINT µs", lower[l], PRIMES, split_calls, flint_calls);
    time_kinds("       copy µs     split µs", polynomials, PRIMES, copy_calls, split_calls);
    time_kinds("      typed µs     split µs", polynomials, EARLIER_PRIMES, typed_calls, split_calls);
    time_powers("7:x", "+(x+6)^32");
    time_powers("251:x", "+(x+62999)^32");
    printf("prime  without 04 µs   with 04 µs       run µs      walk µs     table µs   medians of %d random polynomials of degree %d\n", EACH, DEGREE);
    for (unsigned p = 0; p < PRIMES; p++)
        time_runs(p);
    size_t used = stack_of_answers(), by_copy = stack_of_copies(), by_typed = stack_of_lines();
    printf("stack touched by split and read: %zu bytes, by copy: %zu, limit %d; by typed: %zu, limit %d\n", used, by_copy, STACK_LIMIT, by_typed,
           TYPED_STACK_LIMIT);
    int low = used < STACK_LIMIT && by_copy < STACK_LIMIT && by_typed < TYPED_STACK_LIMIT;
    return !good || lines != EARLIER_PRIMES * KINDS * EACH || !low;
}
