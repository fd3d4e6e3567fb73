/* How much stack the library touches: its calls run on a thread whose stack was painted before. What lies above the caller's frame, the
   thread's own records, does not count. */
#include <pthread.h>
#include <stdlib.h>
#include <string.h>

#include "bench.h"

#define STACK (1024 * 1024)
#define PAINT 0xA5

static uint8_t answers[2][KUZHMADER_AREA];
static uintptr_t caller;

/* Splits polynomials and reads their answers. */
static void split_and_read(const polynomial *f, size_t count)
{
    for (size_t i = 0; i < count; i++) {
        kuzhmader_outcome split = kuzhmader_split(f[i].sheet, f[i].sheet_length, answers[0], KUZHMADER_AREA);
        kuzhmader_read(answers[0], split.count, answers[1], KUZHMADER_AREA);
    }
}

static void copy_each(const polynomial *f, size_t count)
{
    for (size_t i = 0; i < count; i++)
        kuzhmader_copy(f[i].sheet, f[i].sheet_length, answers[0], KUZHMADER_AREA);
}

static void *answer_all(void *argument)
{
    uint8_t here;
    caller = (uintptr_t)&here;
    split_and_read(&polynomials[0][0][0], PRIMES * KINDS * EACH);
    split_and_read(&with_run[0][0], PRIMES * EACH);
    return argument;
}

static void *copy_all(void *argument)
{
    uint8_t here;
    caller = (uintptr_t)&here;
    copy_each(&polynomials[0][0][0], PRIMES * KINDS * EACH);
    copy_each(&with_run[0][0], PRIMES * EACH);
    return argument;
}

/* A line of 255 bytes that has open brackets behind its colon. It is turned back at its end, when the last bytes have been worked out inside of all of them. */
static void type_brackets(const char *first, const char *last)
{
    uint8_t line[LINE_BYTES];
    size_t length = strlen(last);
    memset(line, '(', sizeof line);
    memcpy(line, first, strlen(first));
    memcpy(line + sizeof line - length, last, length);
    kuzhmader_typed(line, sizeof line, answers[0], KUZHMADER_AREA);
}

static void *type_all(void *argument)
{
    static const char *const last[] = {"", "x", "x^2", "x*x", "x-x", "x^2*x-x"};
    static const char wide[] = "251:(x+62999)^16*(x^2+62998*x-65535)^8";
    uint8_t here;
    caller = (uintptr_t)&here;
    for (const polynomial *f = &polynomials[0][0][0]; f < &polynomials[0][0][0] + EARLIER_PRIMES * KINDS * EACH; f++)
        kuzhmader_typed(f->line, f->line_length, answers[0], KUZHMADER_AREA);
    kuzhmader_typed((const uint8_t *)wide, strlen(wide), answers[0], KUZHMADER_AREA);
    for (size_t i = 0; i < sizeof last / sizeof last[0]; i++) {
        type_brackets("2:", last[i]);
        type_brackets("251:", last[i]);
    }
    return argument;
}

/* The stack grows down: what is not painted any more, from the lowest changed byte up to the caller's frame. */
static size_t touched(void *(*calls)(void *))
{
    pthread_t thread;
    pthread_attr_t attributes;
    size_t untouched = 0;
    uint8_t *stack = aligned_alloc(4096, STACK);
    if (stack == NULL)
        abort();
    memset(stack, PAINT, STACK);
    pthread_attr_init(&attributes);
    if (pthread_attr_setstack(&attributes, stack, STACK) != 0 || pthread_create(&thread, &attributes, calls, NULL) != 0)
        abort();
    pthread_join(thread, NULL);
    while (untouched < STACK && stack[untouched] == PAINT)
        untouched++;
    size_t used = caller - (uintptr_t)(stack + untouched);
    pthread_attr_destroy(&attributes);
    free(stack);
    return used;
}

size_t stack_of_answers(void)
{
    return touched(answer_all);
}

size_t stack_of_copies(void)
{
    return touched(copy_all);
}

size_t stack_of_lines(void)
{
    return touched(type_all);
}
