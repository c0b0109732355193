/*
 * Works a day: reads call lines from standard input to its end and writes the answers to standard output.
 * Says a read or write that fails on standard error, and ends with status 1.
 *
 *   (cd crates/yeldozhym && rt lib)
 *   cc -Iinclude -o day examples/c/day.c crates/yeldozhym/out/libyeldozhym.a
 */
#include <errno.h>
#include <stdint.h>
#include <stdio.h>
#include <stdlib.h>
#include <string.h>

#include "yeldozhym.h"

static int failed(const char *what)
{
    fprintf(stderr, "day: %s: %s\n", what, strerror(errno));
    return 1;
}

/* All of standard input, in memory that the caller frees; NULL where a read fails or memory runs out. */
static uint8_t *read_all(size_t *len)
{
    size_t room = 65536;
    uint8_t *bytes = malloc(room);

    *len = 0;
    while (bytes != NULL) {
        size_t got = fread(bytes + *len, 1, room - *len, stdin);

        *len += got;
        if (got == 0) {
            if (!ferror(stdin))
                return bytes;
            break;
        }
        if (*len == room) {
            uint8_t *more = realloc(bytes, 2 * room);

            if (more == NULL)
                break;
            bytes = more;
            room = 2 * room;
        }
    }
    int why = errno;

    free(bytes);
    errno = why;
    return NULL;
}

int main(void)
{
    size_t len;
    uint8_t *input = read_all(&len);

    if (input == NULL)
        return failed("cannot read");

    /* a buffer of no bytes asks for the room; a host that counts its lines need not ask, see yeldozhym.h */
    size_t room = yeldozhym_work_day(input, len, NULL, 0);
    uint8_t *out = calloc(room, 1);

    if (out == NULL)
        return failed("no room for the answers");
    yeldozhym_work_day(input, len, out, room);
    if (fwrite(out, 1, room, stdout) != room || fflush(stdout) != 0)
        return failed("cannot write");
    free(out);
    free(input);
    return 0;
}
