/*
 * pieces.c - runs a program with a file as its standard input, in pieces.
 *
 *     pieces SIZE FILE PROGRAM [ARGUMENT..]
 *
 * Each read() of the program gives one piece of SIZE bytes, at most 4096; with
 * SIZE 0 the sizes vary from 1 to 4096. Standard input is a pipe of packets
 * (O_DIRECT). The exit status is the program's.
 */
#define _GNU_SOURCE
#include <fcntl.h>
#include <stdio.h>
#include <stdlib.h>
#include <sys/wait.h>
#include <unistd.h>

#define LARGEST_PIECE 4096

static int failed(const char *call) {
    perror(call);
    return 2;
}

/* The size of the next piece. */
static size_t next_size(size_t size, unsigned *random) {
    if (size > 0)
        return size;
    *random = *random * 1664525 + 1013904223;
    return 1 + (*random >> 16) % LARGEST_PIECE;
}

/* Writes the file to the pipe, piece by piece. */
static int write_pieces(FILE *file, int out, size_t size) {
    char piece[LARGEST_PIECE];
    unsigned random = 1;
    size_t length;
    while ((length = fread(piece, 1, next_size(size, &random), file)) > 0)
        if (write(out, piece, length) != (ssize_t)length)
            return failed("write");
    return 0;
}

int main(int argc, char **argv) {
    int ends[2];
    int status;
    FILE *file;
    unsigned long size;
    if (argc < 4 || (size = strtoul(argv[1], NULL, 10)) > LARGEST_PIECE)
        return 2;
    file = fopen(argv[2], "rb");
    if (file == NULL || pipe2(ends, O_DIRECT) != 0)
        return failed("pieces");
    switch (fork()) {
    case -1:
        return failed("fork");
    case 0:
        dup2(ends[0], STDIN_FILENO);
        close(ends[0]);
        close(ends[1]);
        execv(argv[3], argv + 3);
        _exit(127);
    }
    close(ends[0]);
    if (write_pieces(file, ends[1], size) != 0)
        return 2;
    close(ends[1]);
    fclose(file);
    if (wait(&status) < 0)
        return failed("wait");
    return WIFEXITED(status) ? WEXITSTATUS(status) : 128 + WTERMSIG(status);
}
