/*
 * A test of libyeldozhym.a, for tests/library: reads a day from standard input and works it with buffers of many lengths. One that is too short must
 * stay as it was, one that is long enough must hold the day's text and keep every byte after it, and the same room must be told each time,
 * no more than the header says for so many lines. Writes the text to standard output.
 */
#include <stdint.h>
#include <stdio.h>
#include <stdlib.h>
#include <string.h>

#include "yeldozhym.h"

/* a byte that no text has */
#define MARK 0xA5

/* bytes after those that are lent, so that a write past their end shows */
#define MARGIN 4096

static uint8_t input[1 << 24], *out;

static void fail(const char *what, size_t lent)
{
    fprintf(stderr, "room: %s, %zu bytes lent\n", what, lent);
    exit(1);
}

/* Sees what became of the bytes of out, some of which were lent, where so much room is told. */
static void see(size_t room, size_t lent)
{
    size_t written = room <= lent ? room : 0;

    for (size_t i = 0; i < lent + MARGIN; i++) {
        if (i < written && out[i] == MARK)
            fail("a byte of the text was not written", lent);
        if (i >= written && out[i] != MARK)
            fail("a byte that is no text was written", lent);
    }
}

/* Works the day with some bytes of out lent, by both functions of the header, to one of them null for no bytes; answers the room that is told. */
static size_t work(size_t len, size_t lent)
{
    memset(out, MARK, lent + MARGIN);

    size_t room = yeldozhym_day(input, len, out, lent);

    see(room, lent);
    memset(out, MARK, lent + MARGIN);
    if (yeldozhym_work_day(len == 0 ? NULL : input, len, lent == 0 ? NULL : out, lent) != room)
        fail("yeldozhym_work_day tells another room", lent);
    see(room, lent);
    return room;
}

static uint8_t *bytes(size_t count)
{
    uint8_t *found = malloc(count);

    if (found == NULL)
        fail("no memory", count);
    return found;
}

/* How many lines the first bytes of input are. */
static size_t lines(size_t len)
{
    size_t count = len > 0 && input[len - 1] != '\n';

    for (size_t i = 0; i < len; i++)
        count += input[i] == '\n';
    return count;
}

int main(void)
{
    size_t len = fread(input, 1, sizeof input, stdin);

    if (ferror(stdin) || len == sizeof input)
        fail("the input cannot be read or is too long", 0);
    out = bytes(MARGIN);

    size_t room = work(len, 0);
    uint8_t *text = bytes(room);
    const size_t lengths[] = {room, 1, YELDOZHYM_HEADER - 1, YELDOZHYM_HEADER, room / 2, room - 2, room - 1, room + 1, 2 * room};

    if (len == 0 && room != YELDOZHYM_HEADER)
        fail("the header has another length", 0);
    if (room > YELDOZHYM_HEADER + YELDOZHYM_LONGEST_ANSWER * lines(len))
        fail("more room is told than so many lines can need", 0);
    free(out);
    out = bytes(2 * room + MARGIN);
    for (size_t i = 0; i < sizeof lengths / sizeof *lengths; i++) {
        if (work(len, lengths[i]) != room)
            fail("another room is told", lengths[i]);
        if (i == 0)
            memcpy(text, out, room);
        if (room <= lengths[i] && memcmp(text, out, room) != 0)
            fail("another text is written", lengths[i]);
    }
    if (fwrite(text, 1, room, stdout) != room || fflush(stdout) != 0)
        fail("cannot write", room);
    free(text);
    free(out);
    return 0;
}
