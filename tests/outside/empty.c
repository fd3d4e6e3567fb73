/* No bytes from C: a null pointer with length 0, as a sheet, as an answer, as a line and as an area, handed to the calls of include/kuzhmader.h that take it.
 * Prints a line for each outcome that is not that of documents 01 and 02, and ends with status 1 if there is one. */
#include <stdio.h>
#include <string.h>

#include "kuzhmader.h"

static uint8_t painted[KUZHMADER_AREA], area[KUZHMADER_AREA];
static int failed = 0;

/* The call gave this number at place 0 with count 0, and the area is as it was painted. */
static void refused(const char *call, kuzhmader_outcome outcome, unsigned number)
{
    if (outcome.number == number && outcome.place == 0 && outcome.count == 0 && memcmp(area, painted, sizeof area) == 0)
        return;
    printf("%s: number %u, place %lu, count %lu, or the area is changed\n", call, outcome.number, (unsigned long)outcome.place, (unsigned long)outcome.count);
    failed = 1;
}

int main(void)
{
    static const uint8_t x[] = {0x01, 2, 0x02, 1, 0x0F}, copy_of_x[] = {0x01, 2, 0x02, 1, 0x12, 1, 1, 0x0F};
    static const uint8_t line[] = {'2', ':', 'x'};
    size_t i;
    for (i = 0; i < sizeof area; i++)
        painted[i] = area[i] = (uint8_t)(i % 251);
    refused("an empty sheet", kuzhmader_split_nullable(NULL, 0, area, sizeof area), KUZHMADER_SHEET_ENDS);
    refused("an empty sheet to copy", kuzhmader_copy_nullable(NULL, 0, area, sizeof area), KUZHMADER_SHEET_ENDS);
    refused("an empty answer", kuzhmader_read_nullable(NULL, 0, area, sizeof area), KUZHMADER_NO_ANSWER);
    refused("an empty line", kuzhmader_typed_nullable(NULL, 0, area, sizeof area), KUZHMADER_NOT_A_LINE);
    refused("a sheet and no area", kuzhmader_split_nullable(x, sizeof x, NULL, 0), KUZHMADER_AREA_TOO_SHORT);
    refused("a sheet to copy and no area", kuzhmader_copy_nullable(x, sizeof x, NULL, 0), KUZHMADER_AREA_TOO_SHORT);
    refused("bytes to read and no area", kuzhmader_read_nullable(x, sizeof x, NULL, 0), KUZHMADER_AREA_TOO_SHORT);
    refused("a line and no area", kuzhmader_typed_nullable(line, sizeof line, NULL, 0), KUZHMADER_AREA_TOO_SHORT);
    refused("neither sheet nor area", kuzhmader_split_nullable(NULL, 0, NULL, 0), KUZHMADER_AREA_TOO_SHORT);
    refused("neither sheet to copy nor area", kuzhmader_copy_nullable(NULL, 0, NULL, 0), KUZHMADER_AREA_TOO_SHORT);
    refused("neither answer nor area", kuzhmader_read_nullable(NULL, 0, NULL, 0), KUZHMADER_AREA_TOO_SHORT);
    refused("neither line nor area", kuzhmader_typed_nullable(NULL, 0, NULL, 0), KUZHMADER_AREA_TOO_SHORT);
    /* a pointer and a length that are there go on as they are */
    if (kuzhmader_split_nullable(x, sizeof x, area, sizeof area).number != KUZHMADER_DONE || memcmp(area, painted, sizeof area) == 0) {
        printf("a sheet is not split\n");
        failed = 1;
    }
    if (kuzhmader_copy_nullable(x, sizeof x, area, sizeof area).count != sizeof copy_of_x || memcmp(area, copy_of_x, sizeof copy_of_x) != 0) {
        printf("a sheet is not copied\n");
        failed = 1;
    }
    if (kuzhmader_typed_nullable(line, sizeof line, area, sizeof area).count != sizeof x || memcmp(area, x, sizeof x) != 0) {
        printf("a line gives no sheet\n");
        failed = 1;
    }
    return failed;
}
