/* Makes the calls that standard input holds and writes their outcomes to standard output.
 *
 * A call is a byte, 0 for kuzhmader_split, 1 for kuzhmader_read, 2 for kuzhmader_copy and 3 for kuzhmader_typed, then the length of the input and that of
 * the area, two bytes each, low byte first, then the input. An outcome is the number, place and count in two bytes each, a byte that is 1 if the call
 * changed its input or a byte of the area past the count, and the bytes written. */
#include <stdio.h>
#include <stdlib.h>
#include <string.h>

#include "kuzhmader.h"

static kuzhmader_call *const calls[] = {kuzhmader_split, kuzhmader_read, kuzhmader_copy, kuzhmader_typed};

static uint8_t paint(size_t place)
{
    return (uint8_t)(place % 251);
}

/* A block of just this length; where it is 0, the pointer may not be read. */
static uint8_t *block(size_t length)
{
    uint8_t *bytes = malloc(length);
    if (bytes == NULL && (bytes = malloc(1)) == NULL)
        abort();
    return bytes;
}

static void put_number(size_t number)
{
    putchar((int)(number % 256));
    putchar((int)(number / 256 % 256));
}

static int area_changed(const uint8_t *area, size_t from, size_t length)
{
    for (size_t i = from; i < length; i++)
        if (area[i] != paint(i))
            return 1;
    return 0;
}

/* One call, with the length of the input, that of the area and the input in `bytes`. */
static void make_call(kuzhmader_call *call, const uint8_t *bytes, size_t length, size_t room)
{
    uint8_t *input = block(length), *area = block(room);
    memcpy(input, bytes, length);
    for (size_t i = 0; i < room; i++)
        area[i] = paint(i);
    kuzhmader_outcome outcome = call(input, length, area, room);
    put_number(outcome.number);
    put_number(outcome.place);
    put_number(outcome.count);
    putchar(memcmp(input, bytes, length) != 0 || area_changed(area, outcome.count, room));
    fwrite(area, 1, outcome.count, stdout);
    free(input);
    free(area);
}

int main(void)
{
    static uint8_t head[5], bytes[65536];
    while (fread(head, 1, sizeof head, stdin) == sizeof head) {
        size_t length = head[1] + 256u * head[2], room = head[3] + 256u * head[4];
        if (head[0] >= sizeof calls / sizeof calls[0] || fread(bytes, 1, length, stdin) != length)
            return 1;
        make_call(calls[head[0]], bytes, length, room);
    }
    return 0;
}
