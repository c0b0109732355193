/*
 * Writes call lines: reads rows from standard input, each the kind and the fields of a call as numbers parted by blanks, and writes the line
 * of each call to standard output. Says on standard error which rows are no calls, and a read or write that fails; then the status is 1.
 *
 *   (cd crates/yeldozhym && rt lib)
 *   cc -Iinclude -o lines examples/c/lines.c crates/yeldozhym/out/libyeldozhym.a
 */
#include <errno.h>
#include <stdint.h>
#include <stdio.h>
#include <string.h>

#include "yeldozhym.h"

/* no call has more, since each takes a digit of its line and a comma or byte 10 */
#define MOST_NUMBERS (YELDOZHYM_LONGEST_CALL / 2)

static int failed(const char *what)
{
    fprintf(stderr, "lines: %s: %s\n", what, strerror(errno));
    return 1;
}

static int is_digit(int c)
{
    return c >= '0' && c <= '9';
}

/* Reads the number that starts with the digit c, and the byte after it into c. Where it has more than 32 bits, so has the answer. */
static uint64_t read_number(int *c)
{
    uint64_t number = 0;

    for (; is_digit(*c); *c = getchar())
        if (number <= UINT32_MAX)
            number = 10 * number + (uint64_t)(*c - '0');
    return number;
}

/* Reads the row that starts with the byte c. Answers how many numbers it is, and 0 where it is something else than numbers. */
static size_t read_row(int c, uint32_t numbers[])
{
    size_t count = 0;
    int good = 1;

    while (c != '\n' && c != EOF) {
        if (is_digit(c)) {
            uint64_t number = read_number(&c);

            good = good && number <= UINT32_MAX && count < MOST_NUMBERS;
            if (good)
                numbers[count++] = (uint32_t)number;
        } else {
            good = good && (c == ' ' || c == '\t');
            c = getchar();
        }
    }
    return good ? count : 0;
}

int main(void)
{
    uint32_t numbers[MOST_NUMBERS];
    uint8_t line[YELDOZHYM_LONGEST_CALL];
    int status = 0, c;

    for (unsigned long row = 1; (c = getchar()) != EOF; row++) {
        size_t count = read_row(c, numbers);
        /* no numbers are no call */
        struct yeldozhym_put put = {20, 0};

        /* a row that a failed read has cut is not written */
        if (ferror(stdin))
            break;
        if (count > 0)
            put = yeldozhym_put_call(numbers[0], numbers + 1, count - 1, line, sizeof line, 0);
        /* there is room for any line, so it is not 21 */
        if (put.code == 20) {
            fprintf(stderr, "lines: row %lu is no call\n", row);
            status = 1;
        }
        if (fwrite(line, 1, put.length, stdout) != put.length)
            return failed("cannot write");
    }
    if (ferror(stdin))
        return failed("cannot read");
    if (fflush(stdout) != 0)
        return failed("cannot write");
    return status;
}
