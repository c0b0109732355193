/*
 * Makes calls one by one: runs the day program over two pipes, sends it each line of standard input and prints the answer line before it sends
 * the next. The header comes first. Says on standard error what fails; then the status is 1.
 *
 *   (cd crates/day && rt run </dev/null)
 *   cc -o harness examples/c/harness.c
 *   ./harness crates/day/out/day <TRAFFIC
 */
#define _POSIX_C_SOURCE 200809L

#include <errno.h>
#include <fcntl.h>
#include <signal.h>
#include <stdio.h>
#include <stdlib.h>
#include <string.h>
#include <sys/types.h>
#include <sys/wait.h>
#include <unistd.h>

/* the program, where its calls go and where its answers come from */
static pid_t program;
static FILE *calls, *answers;

static int failed(const char *what)
{
    fprintf(stderr, "harness: %s: %s\n", what, strerror(errno));
    return 1;
}

/* In the program's process: its ends of the pipes are standard input and output, and the others are closed, or its input would never end. */
static void become(char *path, const int in[2], const int out[2])
{
    char *const words[] = {path, NULL};

    if (dup2(in[0], STDIN_FILENO) < 0 || dup2(out[1], STDOUT_FILENO) < 0)
        return;
    if (close(in[0]) != 0 || close(in[1]) != 0 || close(out[0]) != 0 || close(out[1]) != 0)
        return;
    if (signal(SIGPIPE, SIG_DFL) == SIG_ERR)
        return;
    execv(path, words);
}

static int start(char *path)
{
    int in[2], out[2];

    if (pipe(in) != 0 || pipe(out) != 0)
        return failed("cannot make a pipe");
    program = fork();
    if (program < 0)
        return failed("cannot make a process");
    if (program == 0) {
        become(path, in, out);
        failed("cannot run the program");
        _exit(127);
    }
    if (close(in[0]) != 0 || close(out[1]) != 0)
        return failed("cannot close a pipe");
    calls = fdopen(in[1], "w");
    answers = fdopen(out[0], "r");
    return calls == NULL || answers == NULL ? failed("cannot use a pipe") : 0;
}

/* Sends a line. A last one may lack byte 10, for which the program would wait. */
static int send_line(const char *line, size_t length)
{
    if (fwrite(line, 1, length, calls) != length)
        return failed("cannot send a line");
    if (line[length - 1] != '\n' && putc('\n', calls) == EOF)
        return failed("cannot send a line");
    return fflush(calls) != 0 ? failed("cannot send a line") : 0;
}

/* Waits for a line of the program, and prints it. */
static int print_answer(void)
{
    static char *line;
    static size_t room;
    ssize_t length = getline(&line, &room, answers);

    if (ferror(answers) || (length < 0 && !feof(answers)))
        return failed("cannot read an answer");
    if (length <= 0 || line[length - 1] != '\n') {
        fputs("harness: the program ended before its answer did\n", stderr);
        return 1;
    }
    if (fwrite(line, 1, (size_t)length, stdout) != (size_t)length || fflush(stdout) != 0)
        return failed("cannot write");
    return 0;
}

static int make_calls(void)
{
    char *line = NULL;
    size_t room = 0;
    ssize_t length;
    int status = print_answer();

    /* a line that a failed read has cut is not sent */
    while (status == 0 && (length = getline(&line, &room, stdin)) > 0 && !ferror(stdin)) {
        status = send_line(line, (size_t)length);
        if (status == 0)
            status = print_answer();
    }
    if (status == 0 && !feof(stdin))
        status = failed("cannot read");
    free(line);
    return status;
}

/* Ends the program's input, and so the program. It has nothing more to write, and ends with status 0. */
static int finish(int status)
{
    int ended;

    if (fclose(calls) != 0 && status == 0)
        status = failed("cannot send the end");
    if (status == 0 && getc(answers) != EOF) {
        fputs("harness: the program wrote more than its answers\n", stderr);
        status = 1;
    }
    if (status == 0 && ferror(answers))
        status = failed("cannot read an answer");
    /* else it might wait for a reader */
    fclose(answers);
    while (waitpid(program, &ended, 0) < 0)
        if (errno != EINTR)
            return failed("cannot wait for the program");
    if (WIFSIGNALED(ended))
        fprintf(stderr, "harness: signal %d ended the program\n", WTERMSIG(ended));
    else if (WEXITSTATUS(ended) != 0)
        fprintf(stderr, "harness: the program ended with status %d\n", WEXITSTATUS(ended));
    return status != 0 || ended != 0;
}

int main(int argc, char **argv)
{
    if (argc != 2) {
        fputs("usage: harness PROGRAM <TRAFFIC >ANSWERS\n", stderr);
        return 2;
    }
    /* a pipe would take the place of a standard stream that is closed */
    for (int stream = STDIN_FILENO; stream <= STDERR_FILENO; stream++)
        if (fcntl(stream, F_GETFD) < 0)
            return failed("a standard stream is closed");
    /* a reader that leaves is then told by the write */
    if (signal(SIGPIPE, SIG_IGN) == SIG_ERR)
        return failed("cannot ignore a signal");
    if (start(argv[1]) != 0)
        return 1;
    return finish(make_calls());
}
