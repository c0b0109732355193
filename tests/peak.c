/*
 * Peak memory of a program, for tests/speed: runs it and writes to the file that is named first the most memory that it ever held, in KB (VmHWM of
 * /proc/PID/status). It is read when the program is about to end, by ptrace, so it is that of the program alone: what waitpid or GNU time tell has in it what the
 * process held before it became the program. Ends as the program does, and with status 2 where it cannot tell.
 */
#define _DEFAULT_SOURCE

#include <stdint.h>
#include <stdio.h>
#include <stdlib.h>
#include <sys/ptrace.h>
#include <sys/types.h>
#include <sys/wait.h>
#include <unistd.h>

static void fail(const char *what)
{
    perror(what);
    exit(2);
}

/* Writes the peak of a process that is still there to the file. */
static void tell(pid_t child, const char *file)
{
    char name[64], line[256];
    unsigned long peak = 0;

    snprintf(name, sizeof name, "/proc/%ld/status", (long)child);

    FILE *status = fopen(name, "r"), *out = fopen(file, "w");

    if (status == NULL || out == NULL)
        fail("peak: cannot open");
    while (fgets(line, sizeof line, status) != NULL && sscanf(line, "VmHWM: %lu kB", &peak) != 1)
        ;
    fclose(status);
    if (peak == 0 || fprintf(out, "%lu\n", peak) < 0 || fclose(out) != 0)
        fail("peak: cannot tell");
}

int main(int argc, char **argv)
{
    int status = 0;

    if (argc < 3) {
        fputs("usage: peak FILE PROGRAM [WORDS..]\n", stderr);
        return 2;
    }

    pid_t child = fork();

    if (child == 0) {
        if (ptrace(PTRACE_TRACEME, 0, NULL, NULL) == 0)
            execvp(argv[2], argv + 2);
        perror("peak: cannot run");
        _exit(2);
    }
    /* it stops as the program begins */
    if (child < 0 || waitpid(child, &status, 0) < 0)
        fail("peak: cannot run");
    if (!WIFSTOPPED(status))
        return 2;
    if (ptrace(PTRACE_SETOPTIONS, child, NULL, (void *)(uintptr_t)(PTRACE_O_TRACEEXEC | PTRACE_O_TRACEEXIT | PTRACE_O_EXITKILL)) != 0)
        fail("peak: cannot trace");
    for (int signal = 0;; signal = WSTOPSIG(status)) {
        if (ptrace(PTRACE_CONT, child, NULL, (void *)(uintptr_t)signal) != 0 || waitpid(child, &status, 0) < 0)
            fail("peak: cannot trace");
        if (!WIFSTOPPED(status))
            break;
        if (status >> 16 == PTRACE_EVENT_EXIT)
            tell(child, argv[1]);
        /* an event, and no signal that is to be passed on */
        if (status >> 16 != 0)
            status = 0;
    }
    return WIFEXITED(status) ? WEXITSTATUS(status) : 128 + WTERMSIG(status);
}
