/*
 * Answers a file of cases for the program by running it: lines CASES ANSWERS PROGRAM ARGS..
 *
 * Each case's input is the program's standard input. Its standard output is the answer's bytes, and its exit status the result. A run that
 * takes too long is ended by a signal. Exit status 0 when every case was answered, 1 when the program was ended by a signal, and 2 when a
 * file cannot be read or written, is not of its form, or the program cannot be run.
 */
#include "cases.h"

#include <errno.h>
#include <signal.h>
#include <stdlib.h>
#include <sys/wait.h>
#include <unistd.h>

/* What a pipe holds: an input is put into it whole before anything is read back. A line has fewer bytes. A run takes fewer seconds. */
enum { MOST_INPUT = 65536, MOST_LINE = 1 << 20, PATIENCE = 120 };

struct ends {
    int read, write;
};

static struct ends new_pipe(void)
{
    int ends[2];
    if (pipe(ends) != 0)
        fail("lines: no pipe");
    return (struct ends){ends[0], ends[1]};
}

static void close_both(struct ends ends)
{
    close(ends.read);
    close(ends.write);
}

/* Starts the program between two pipes: it reads from the one and writes to the other, and the other two ends stay here. */
static pid_t start(char **program, struct ends input, struct ends output)
{
    pid_t child = fork();
    if (child < 0)
        fail("lines: no process");
    if (child == 0) {
        signal(SIGPIPE, SIG_DFL);
        if (dup2(input.read, 0) == 0 && dup2(output.write, 1) == 1) {
            close_both(input);
            close_both(output);
            alarm(PATIENCE);
            execvp(program[0], program);
        }
        _exit(127);
    }
    close(input.read);
    close(output.write);
    return child;
}

/* Writes the whole input, as far as the program wants it: one that is too long need not be read to its end. */
static void feed(int to, struct bytes input)
{
    while (input.len > 0) {
        ssize_t put = write(to, input.at, input.len);
        if (put < 0 && errno == EPIPE)
            break;
        if (put < 0 && errno != EINTR)
            fail("lines: cannot write to the program");
        if (put > 0) {
            input.at += put;
            input.len -= (size_t)put;
        }
    }
    close(to);
}

static size_t drain(int from, uint8_t *line)
{
    size_t len = 0;
    ssize_t got;
    while ((got = read(from, line + len, MOST_LINE - len)) != 0) {
        if (got < 0 && errno != EINTR)
            fail("lines: cannot read from the program");
        if (got > 0)
            len += (size_t)got;
        if (len == MOST_LINE)
            fail("lines: the program writes without end");
    }
    close(from);
    return len;
}

static struct answer run(char **program, struct bytes input)
{
    static uint8_t line[MOST_LINE];
    struct ends in = new_pipe(), out = new_pipe();
    pid_t child;
    size_t len;
    int status;
    if (input.len > MOST_INPUT)
        fail("lines: a case has more bytes than a pipe holds");
    child = start(program, in, out);
    feed(in.write, input);
    len = drain(out.read, line);
    if (waitpid(child, &status, 0) != child)
        fail("lines: the program cannot be waited for");
    if (!WIFEXITED(status)) {
        fputs("lines: the program was ended by a signal\n", stderr);
        exit(1);
    }
    if (WEXITSTATUS(status) == 127)
        fail("lines: the program cannot be run");
    return (struct answer){(uint64_t)WEXITSTATUS(status), {line, len}};
}

int main(int argc, char **argv)
{
    struct files files;
    struct asked asked;
    if (argc < 4)
        fail("usage: lines CASES ANSWERS PROGRAM ARGS..");
    signal(SIGPIPE, SIG_IGN);
    files = open_files(argv[1], argv[2]);
    while (next_case(&files, PROGRAM, &asked))
        write_answer(&files, run(argv + 3, asked.image));
    close_files(&files);
    printf("%zu cases answered, each by a run of the program\n", files.taken);
    return 0;
}
