/* Splits document 01's example, x³ + 6x² + 4 modulo 9, typed as it is spoken, and asks for its run length; prints the answer as the program `split` does,
 * reads the answer back, and prints the bytes of the copy that purchasing may see. Then the same for a ring with 17 teeth, modulo 289, whose coefficients
 * take two bytes. */
#include <stdio.h>
#include <string.h>

#include "kuzhmader.h"

static const char *const lines[] = {"3: (x+1)^2*(x+4)", "17: (x-1)^2*(x+4)"};

static const char *const verdicts[] = {"", "basic", "solid", "power", "split"};

/* Prints the factor whose command stands at `at`, and gives the place after its coefficients: those up to the prime 13 are 0x03 with one byte, those from 17
 * on 0x05 with two, low byte first. */
static const uint8_t *print_factor(const uint8_t *at)
{
    unsigned degree = at[1], coefs[KUZHMADER_LIMIT] = {0};
    printf("factor %u", at[2]);
    for (at += 3; *at == 0x03 || *at == 0x05; at += *at == 0x03 ? 3 : 4)
        coefs[at[1]] = *at == 0x03 ? at[2] : at[2] + 256u * at[3];
    for (unsigned i = 0; i < degree; i++)
        printf(" %u", coefs[i]);
    printf(" 1\n");
    return at;
}

static void print_answer(const uint8_t *at)
{
    printf("prime %u degree %u\n", at[1], at[3]);
    at += 4;
    while (*at != 0x13)
        if (*at == 0x11) {
            printf("part %u %u %s\n", at[1], at[2], verdicts[at[3]]);
            at += 4;
        } else
            at = print_factor(at);
    printf("total %u different %u free %u\n", at[1], at[2], at[3]);
    at += 4;
    if (*at == 0x14)
        printf("run %u\n", at[1] + 256u * at[2]);
}

static void print_copy(const uint8_t *copy, size_t count)
{
    printf("copy");
    for (size_t i = 0; i < count; i++)
        printf(" %02X", copy[i]);
    printf("\n");
}

static int refused(kuzhmader_outcome outcome)
{
    if (outcome.number != KUZHMADER_DONE)
        printf("refused %u at %zu\n", outcome.number, outcome.place);
    return outcome.number != KUZHMADER_DONE;
}

/* The sheet of a line, which ends with 0x0F, and 0x04 before that. Gives its length, 0 if the line is refused. */
static size_t make_sheet(const char *line, uint8_t sheet[KUZHMADER_AREA])
{
    kuzhmader_outcome typed = kuzhmader_typed_nullable((const uint8_t *)line, strlen(line), sheet, KUZHMADER_AREA);
    if (refused(typed))
        return 0;
    sheet[typed.count - 1] = 0x04;
    sheet[typed.count] = 0x0F;
    return typed.count + 1;
}

/* A line from its sheet to its copy. Gives 1 if a call is refused or the answer does not lead back. */
static int show(const char *line)
{
    uint8_t sheet[KUZHMADER_AREA], answer[KUZHMADER_AREA], back[KUZHMADER_AREA], copy[KUZHMADER_AREA];
    size_t length = make_sheet(line, sheet);
    kuzhmader_outcome split = kuzhmader_split_nullable(sheet, length, answer, sizeof answer);
    if (length == 0 || refused(split))
        return 1;
    print_answer(answer);
    kuzhmader_outcome read = kuzhmader_read_nullable(answer, split.count, back, sizeof back);
    if (read.count != length || memcmp(back, sheet, length) != 0) {
        printf("the answer does not lead back to the sheet\n");
        return 1;
    }
    kuzhmader_outcome copied = kuzhmader_copy_nullable(sheet, length, copy, sizeof copy);
    if (copied.number != KUZHMADER_DONE) {
        printf("no copy: refused %u\n", copied.number);
        return 1;
    }
    print_copy(copy, copied.count);
    return 0;
}

int main(void)
{
    return show(lines[0]) || show(lines[1]);
}
