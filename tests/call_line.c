/*
 * A test of yeldozhym_call_line, yeldozhym_write_line, yeldozhym_put_call and yeldozhym_put_line, for tests/library, in C and in C++: reads cases from standard
 * input, as second/src/bin/calls.rs has them, and has each line written by the four functions into a buffer between margins. The length told and every byte of
 * the buffer must be those of the case, and the margins must stay. A code that is told is 20 where the numbers are no call's by the table here, else 21 where
 * nothing is written, else 0; each of them must occur. Prints how many cases there were.
 */
#include <stdint.h>
#include <stdio.h>
#include <stdlib.h>
#include <string.h>

#include "yeldozhym.h"

/* a byte that no line has, and how many of it stand before the buffer and after it */
#define MARK 0xA5
#define MARGIN 256

/* what a case may have */
#define MOST_FIELDS 16
#define MOST_BYTES 4096

/* how many fields each kind has, from kind 1 on: "The ten calls" of document 01, and leave */
static const size_t kind_fields[] = {3, 3, 6, 2, 5, 1, 2, 6, 2, 1, 2};

/* the case: what is handed over, the code and the length that must be told, and what the bytes must be after it */
static uint32_t kind, fields[MOST_FIELDS], code;
static size_t count, size, place, length;
static uint8_t expected[MARGIN + MOST_BYTES + MARGIN];

/* the buffer between its margins */
static uint8_t bytes[sizeof expected];

/* how many cases there were, and how many of each code */
static size_t cases, with_code[22];

static void fail(const char *what, size_t number)
{
    fprintf(stderr, "call_line: case %zu: %s (%zu)\n", cases + 1, what, number);
    exit(1);
}

/* Reads a number up to most, which has no leading zero, and the blank after it. */
static uint64_t read_number(uint64_t most)
{
    uint64_t number = 0;
    size_t digits = 0;
    int c = getchar();

    for (; c >= '0' && c <= '9'; c = getchar()) {
        uint64_t digit = (uint64_t)(c - '0');

        if (digit > most || number > (most - digit) / 10)
            fail("a number is above", (size_t)most);
        if (digits > 0 && number == 0)
            fail("a number has a leading zero, digits", digits);
        number = 10 * number + digit;
        digits++;
    }
    if (digits == 0 || c != ' ')
        fail("no number and blank, digits", digits);
    return number;
}

static int read_hexadecimal(void)
{
    int c = getchar();

    if (c >= '0' && c <= '9')
        return c - '0';
    if (c < 'a' || c > 'f')
        fail("no hexadecimal digit, bytes", size);
    return c - 'a' + 10;
}

/* Reads what the bytes of the buffer must be, and the end of the line. */
static void read_expected(void)
{
    memset(expected, MARK, sizeof expected);
    if (size == 0 && getchar() != '-')
        fail("no sign for no bytes", size);
    for (size_t i = 0; i < size; i++) {
        int high = read_hexadecimal();

        expected[MARGIN + i] = (uint8_t)(16 * high + read_hexadecimal());
    }
    if (getchar() != '\n')
        fail("no end of the line, bytes", size);
}

/* The code that must be told. */
static uint32_t code_due(void)
{
    int is_call = kind >= 1 && kind <= sizeof kind_fields / sizeof *kind_fields && count == kind_fields[kind - 1];

    if (!is_call && length > 0)
        fail("a line of no call, bytes", length);
    return !is_call ? 20 : length == 0 ? 21 : 0;
}

/* Reads a case; answers whether there was one. */
static int read_case(void)
{
    int c = getchar();

    if (c == EOF)
        return 0;
    ungetc(c, stdin);
    kind = (uint32_t)read_number(UINT32_MAX);
    count = (size_t)read_number(MOST_FIELDS);
    for (size_t i = 0; i < count; i++)
        fields[i] = (uint32_t)read_number(UINT32_MAX);
    size = (size_t)read_number(MOST_BYTES);
    place = (size_t)read_number(SIZE_MAX);
    length = (size_t)read_number(YELDOZHYM_LONGEST_CALL);
    code = code_due();
    with_code[code]++;
    read_expected();
    return 1;
}

/* Makes the bytes what they are before the line is written. */
static void prepare(void)
{
    memset(bytes, MARK, sizeof bytes);
    for (size_t i = 0; i < size; i++)
        bytes[MARGIN + i] = (uint8_t)(7 * i + 35);
}

/* Sees the length told and what became of the bytes. */
static void see(size_t told)
{
    if (told != length)
        fail("another length is told", told);
    for (size_t i = 0; i < sizeof bytes; i++) {
        if (i < MARGIN && bytes[i] != expected[i])
            fail("a byte before the buffer has changed, so far from it", MARGIN - i);
        if (bytes[i] != expected[i])
            fail("a byte of the buffer or after it is another, number", i - MARGIN);
    }
}

static void see_put(struct yeldozhym_put told)
{
    if (told.code != code)
        fail("another code is told", told.code);
    see(told.length);
}

int main(void)
{
    uint8_t *out = bytes + MARGIN;

    for (; read_case(); cases++) {
        prepare();
        see(yeldozhym_call_line(kind, fields, count, out, size, place));
        prepare();
        see(yeldozhym_write_line(kind, count == 0 ? NULL : fields, count, size == 0 ? NULL : out, size, place));
        prepare();
        see_put(yeldozhym_put_call(kind, fields, count, out, size, place));
        prepare();
        see_put(yeldozhym_put_line(kind, count == 0 ? NULL : fields, count, size == 0 ? NULL : out, size, place));
    }
    if (ferror(stdin) || cases == 0)
        fail("cannot read, or there is no case", cases);
    if (with_code[0] == 0 || with_code[20] == 0 || with_code[21] == 0)
        fail("a code does not occur", cases);
    if (printf("%zu\n", cases) < 0 || fflush(stdout) != 0)
        fail("cannot write", cases);
    return 0;
}
