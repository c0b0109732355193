/*
 * A test of libyeldozhym.a, for tests/library: reads a day from standard input and works it in threads whose stack is memory of this program,
 * painted with a mark, with no bytes lent, with as many as the text takes and with one less. The deepest byte that has changed tells what the call took, from
 * the frame that calls; more than YELDOZHYM_STACK is a failure. The first call is the first that this program makes of memcpy, memmove and memset, so what the
 * dynamic linker takes to bind them is counted. A line of a call is measured too, once they are bound. Last the day is worked in some threads at once, each
 * with a buffer of its own and a stack that is no larger than the header says is enough; each must write the same text.
 * Writes the text to standard output, and adds a line with what a call took at most, in bytes, to the file that it is given.
 */
#define _POSIX_C_SOURCE 200809L

#include <limits.h>
#include <pthread.h>
#include <stdint.h>
#include <stdio.h>
#include <stdlib.h>
#include <string.h>

#include "yeldozhym.h"

/* room to see how far a call goes that takes too much */
#define STACK (8 * YELDOZHYM_STACK)

#define PAGE 4096

/* how many threads work the day at once */
#define THREADS 4

static uint8_t input[1 << 24], *out;
static size_t len, lent, room, most;
static uintptr_t caller;
static pthread_barrier_t start;

static void fail(const char *what, size_t number)
{
    fprintf(stderr, "stack: %s (%zu)\n", what, number);
    exit(1);
}

/* The thread: one call. */
static void *work(void *none)
{
    uint8_t frame = 0;

    caller = (uintptr_t)&frame;
    room = yeldozhym_day(input, len, out, lent);
    return none;
}

/* The thread: one line of a call, by both functions. Tells no room where they differ. */
static void *write_line(void *none)
{
    static const uint32_t fields[] = {UINT32_MAX, UINT32_MAX, UINT32_MAX, UINT32_MAX, UINT32_MAX, UINT32_MAX};
    static uint8_t line[YELDOZHYM_LONGEST_CALL];
    uint8_t frame = 0;

    caller = (uintptr_t)&frame;
    room = yeldozhym_call_line(8, fields, sizeof fields / sizeof *fields, line, sizeof line, 0);
    if (yeldozhym_put_call(8, fields, sizeof fields / sizeof *fields, line, sizeof line, 0).length != room)
        room = 0;
    return none;
}

/* One of the threads that work the day at once: one call, when all of them are there. Answers null where another room is told. */
static void *work_at_once(void *own)
{
    pthread_barrier_wait(&start);
    return yeldozhym_day(input, len, own, lent) == lent ? own : NULL;
}

/* Works the day in some threads at once, on as little stack as the header says; out has the text. */
static void at_once(void)
{
    uint8_t *texts = calloc(THREADS, lent);
    pthread_t threads[THREADS];
    pthread_attr_t attributes;

    if (texts == NULL || pthread_barrier_init(&start, NULL, THREADS) != 0)
        fail("no memory or no barrier, threads", THREADS);
    if (pthread_attr_init(&attributes) != 0 || pthread_attr_setstacksize(&attributes, YELDOZHYM_STACK + PTHREAD_STACK_MIN) != 0)
        fail("no stack of this size, bytes", YELDOZHYM_STACK + PTHREAD_STACK_MIN);
    for (size_t i = 0; i < THREADS; i++)
        if (pthread_create(&threads[i], &attributes, work_at_once, texts + i * lent) != 0)
            fail("no thread, number", i);
    for (size_t i = 0; i < THREADS; i++) {
        void *told;

        if (pthread_join(threads[i], &told) != 0 || told == NULL || memcmp(texts + i * lent, out, lent) != 0)
            fail("another text or room among threads at once, number", i);
    }
    pthread_attr_destroy(&attributes);
    pthread_barrier_destroy(&start);
    free(texts);
}

/* Makes a call on a painted stack, and keeps what it took where that is more than before. */
static void measure(volatile uint8_t *stack, uint8_t mark, void *(*call)(void *))
{
    pthread_attr_t attributes;
    pthread_t thread;
    size_t deepest = 0;

    /* volatile, so that this is a loop and no call of memset */
    for (size_t i = 0; i < STACK; i++)
        stack[i] = mark;
    if (pthread_attr_init(&attributes) != 0 || pthread_attr_setstack(&attributes, (void *)(uintptr_t)stack, STACK) != 0)
        fail("no stack of its own, bytes", STACK);
    if (pthread_create(&thread, &attributes, call, NULL) != 0 || pthread_join(thread, NULL) != 0)
        fail("no thread on a stack of its own, bytes", STACK);
    pthread_attr_destroy(&attributes);
    while (deepest < STACK && stack[deepest] == mark)
        deepest++;

    size_t took = caller - (uintptr_t)stack - deepest;

    if (took > YELDOZHYM_STACK)
        fail("the call takes more than YELDOZHYM_STACK, bytes", took);
    if (took > most)
        most = took;
}

int main(int argc, char **argv)
{
    const uint8_t marks[] = {0xA5, 0x5A};
    uint8_t *stack = aligned_alloc(PAGE, STACK);

    len = fread(input, 1, sizeof input, stdin);
    if (argc != 2 || ferror(stdin) || len == sizeof input)
        fail("no file is given, or the input cannot be read or is too long, bytes", len);
    out = calloc(1, 1);
    if (stack == NULL || out == NULL)
        fail("no memory, bytes", STACK);
    measure(stack, marks[0], work);

    size_t text = room;

    free(out);
    out = calloc(text, 1);
    if (out == NULL)
        fail("no memory, bytes", text);
    for (size_t i = 0; i < sizeof marks; i++) {
        const size_t lengths[] = {0, text - 1, text};

        measure(stack, marks[i], write_line);
        if (room == 0)
            fail("a line of a call is not written, bytes", room);
        for (size_t k = 0; k < sizeof lengths / sizeof *lengths; k++) {
            lent = lengths[k];
            measure(stack, marks[i], work);
            if (room != text)
                fail("another room is told, bytes", room);
        }
    }

    /* the last bytes lent were as many as the text takes, so it is in out */
    at_once();
    if (fwrite(out, 1, text, stdout) != text || fflush(stdout) != 0)
        fail("cannot write, bytes", text);

    FILE *depths = fopen(argv[1], "a");

    if (depths == NULL || fprintf(depths, "%zu\n", most) < 0 || fclose(depths) != 0)
        fail("cannot write what the call took, bytes", most);
    free(stack);
    free(out);
    return 0;
}
