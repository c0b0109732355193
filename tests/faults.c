/*
 * Preloaded into the day program by tests/compare (LD_PRELOAD), in the place of the C library's read, write and nanosleep:
 *   FAULTS=SEED          reads and writes fail now and then with EINTR or EAGAIN, or move fewer bytes than asked, by a rule that SEED starts; waits do not wait
 *   FAULTS_READ=N:E      the read number N, from 1, fails with the error E
 *   FAULTS_WRITE=N:E     the write number N fails with the error E, or, where E is 0, takes no byte and answers 0
 *   FAULTS_SAID=N        the first N writes to standard error fail with EAGAIN
 *   FAULTS_NONBLOCK=1    standard input and output do not block
 *   FAULTS_COUNTS=FILE   at the end the counts of all that happened are written to FILE
 * With none of these the calls go to the system as they are.
 */
#define _GNU_SOURCE
#include <errno.h>
#include <fcntl.h>
#include <stdint.h>
#include <stdio.h>
#include <stdlib.h>
#include <sys/syscall.h>
#include <time.h>
#include <unistd.h>

/* what became of the calls of one kind */
struct calls {
    unsigned long all, interrupted, blocked, fewer;
    unsigned long fails_at;
    int error;
};

static struct calls reads, writes;
static unsigned long waits, other_waits, unsaid;
static uint64_t state;

/* the next number of the rule: splitmix64 */
static uint64_t drawn(void)
{
    uint64_t z = state += UINT64_C(0x9E3779B97F4A7C15);

    z = (z ^ (z >> 30)) * UINT64_C(0xBF58476D1CE4E5B9);
    z = (z ^ (z >> 27)) * UINT64_C(0x94D049BB133111EB);
    return z ^ (z >> 31);
}

static void told(struct calls *calls, const char *name)
{
    const char *text = getenv(name);

    if (text && sscanf(text, "%lu:%d", &calls->fails_at, &calls->error) != 2)
        abort();
}

static void stops_blocking(int fd)
{
    int flags = fcntl(fd, F_GETFL);

    if (flags < 0 || fcntl(fd, F_SETFL, flags | O_NONBLOCK) < 0)
        abort();
}

__attribute__((constructor)) static void begins(void)
{
    const char *seed = getenv("FAULTS");

    if (seed)
        state = strtoull(seed, NULL, 10);
    told(&reads, "FAULTS_READ");
    told(&writes, "FAULTS_WRITE");
    if (getenv("FAULTS_SAID"))
        unsaid = strtoul(getenv("FAULTS_SAID"), NULL, 10);
    if (getenv("FAULTS_NONBLOCK")) {
        stops_blocking(STDIN_FILENO);
        stops_blocking(STDOUT_FILENO);
    }
}

static void counts(FILE *file, const char *name, const struct calls *calls)
{
    fprintf(file, "%s %lu interrupted %lu blocked %lu fewer %lu\n", name, calls->all, calls->interrupted, calls->blocked, calls->fewer);
}

__attribute__((destructor)) static void ends(void)
{
    const char *path = getenv("FAULTS_COUNTS");

    if (!path)
        return;

    FILE *file = fopen(path, "w");

    if (!file)
        abort();
    counts(file, "reads", &reads);
    counts(file, "writes", &writes);
    fprintf(file, "waits %lu others %lu\n", waits, other_waits);
    if (fclose(file) != 0)
        abort();
}

static ssize_t failed(int error)
{
    errno = error;
    return -1;
}

/* One call of the kind, of which asked tells how many bytes are asked for; it answers how many to ask the system for, or -1. */
static ssize_t rule(struct calls *calls, size_t asked)
{
    calls->all++;
    if (calls->all == calls->fails_at)
        return calls->error ? failed(calls->error) : 0;
    if (!getenv("FAULTS") || asked == 0)
        return (ssize_t)asked;

    uint64_t draw = drawn();

    switch (draw % 8) {
    case 0:
        calls->interrupted++;
        return failed(EINTR);
    case 1:
        calls->blocked++;
        return failed(EAGAIN);
    case 2:
    case 3:
    case 4: {
        uint64_t most = draw % 8 == 2 ? 3 : draw % 8 == 3 ? 400 : asked;
        uint64_t n = 1 + (draw >> 8) % (most < asked ? most : asked);

        if (n < asked)
            calls->fewer++;
        return (ssize_t)n;
    }
    default:
        return (ssize_t)asked;
    }
}

/* What the system answered; a descriptor that would block is counted too. */
static ssize_t answered(struct calls *calls, long answer)
{
    if (answer < 0 && errno == EAGAIN)
        calls->blocked++;
    return answer;
}

ssize_t read(int fd, void *buf, size_t count)
{
    ssize_t n = rule(&reads, count);

    return n < 0 ? n : answered(&reads, syscall(SYS_read, fd, buf, (size_t)n));
}

ssize_t write(int fd, const void *buf, size_t count)
{
    if (fd != STDOUT_FILENO && unsaid > 0) {
        unsaid--;
        return failed(EAGAIN);
    }
    if (fd != STDOUT_FILENO)
        return syscall(SYS_write, fd, buf, count);

    ssize_t n = rule(&writes, count);

    return n <= 0 ? n : answered(&writes, syscall(SYS_write, fd, buf, (size_t)n));
}

/* A wait of a millisecond is counted apart from any other. What goes on with a wait that a signal cut short is no wait of its own. */
int nanosleep(const struct timespec *asked, struct timespec *left)
{
    static int cut;
    int status = 0;

    if (cut)
        cut = 0;
    else if (asked->tv_sec == 0 && asked->tv_nsec == 1000000)
        waits++;
    else
        other_waits++;
    if (!getenv("FAULTS")) {
        status = (int)syscall(SYS_nanosleep, asked, left);
    } else if (drawn() % 2) {
        *left = *asked;
        status = (int)failed(EINTR);
    }
    if (status < 0 && errno == EINTR)
        cut = 1;
    return status;
}
