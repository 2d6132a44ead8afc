/* Runs a program with a file on its standard input, through a pipe of which each read gets one piece of so
 * many bytes, however quick the program is: a pipe in packet mode, which Linux has.
 *
 *     pieces SIZE FILE PROGRAM [WORDS..]
 *
 * The exit status is the program's; 99 if it could not be run to its end.
 */
#define _GNU_SOURCE
#include <fcntl.h>
#include <signal.h>
#include <stdio.h>
#include <stdlib.h>
#include <sys/wait.h>
#include <unistd.h>

/* A piece that is longer would be cut by the pipe. */
enum { MOST_PIECE = 4096, TROUBLE = 99 };

static void must(int good, const char *what) {
    if (good)
        return;
    perror(what);
    exit(TROUBLE);
}

/* A program that ends early leaves the rest: writing then fails, and that is no trouble. */
static void write_pieces(FILE *file, size_t size, int to) {
    char piece[MOST_PIECE];
    size_t got;
    while ((got = fread(piece, 1, size, file)) > 0)
        if (write(to, piece, got) != (ssize_t)got)
            return;
    must(!ferror(file), "the file");
}

int main(int count, char **words) {
    int ends[2], status;
    long size = count > 3 ? strtol(words[1], NULL, 10) : 0;
    must(size > 0 && size <= MOST_PIECE, "usage: pieces SIZE FILE PROGRAM [WORDS..]");
    FILE *file = fopen(words[2], "rb");
    must(file != NULL, words[2]);
    must(pipe2(ends, O_DIRECT) == 0, "pipe");
    pid_t child = fork();
    must(child >= 0, "fork");
    if (child == 0) {
        must(dup2(ends[0], STDIN_FILENO) >= 0 && close(ends[0]) == 0 && close(ends[1]) == 0, "pipe");
        execvp(words[3], words + 3);
        must(0, words[3]);
    }
    signal(SIGPIPE, SIG_IGN);
    close(ends[0]);
    write_pieces(file, (size_t)size, ends[1]);
    close(ends[1]);
    fclose(file);
    must(waitpid(child, &status, 0) == child, "wait");
    return WIFEXITED(status) ? WEXITSTATUS(status) : TROUBLE;
}
