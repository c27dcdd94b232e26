/* files.c - system calls that try again after EINTR, and report a failure. */
#define _POSIX_C_SOURCE 200112L
#include "files.h"

#include <errno.h>
#include <fcntl.h>
#include <stdio.h>
#include <stdlib.h>
#include <string.h>
#include <sys/stat.h>
#include <sys/types.h>
#include <unistd.h>

void fail(const char *path, const char *call) {
    fprintf(stderr, "%s: %s: %s\n", path, call, strerror(errno));
    exit(EXIT_SYSTEM);
}

void streams_must_be_open(void) {
    static const char *const names[] = {"standard input", "standard output",
                                        "standard errors"};
    int fd;
    for (fd = 0; fd <= 2; fd++)
        if (fcntl(fd, F_GETFD) < 0)
            fail(names[fd], "fcntl");
}

file file_open(const char *path, int flags) {
    file f;
    f.path = path;
    do
        f.fd = open(path, flags, 0666);
    while (f.fd < 0 && errno == EINTR);
    if (f.fd < 0 && (errno != ENOENT || (flags & O_CREAT) != 0))
        fail(path, "open");
    return f;
}

int file_length(const file *f, unsigned long *length) {
    struct stat status;
    *length = 0;
    if (f->fd < 0)
        return 0;
    if (fstat(f->fd, &status) != 0)
        fail(f->path, "fstat");
    if (!S_ISREG(status.st_mode))
        return 0;
    *length = (unsigned long)status.st_size;
    return 1;
}

void file_must_be_regular(const file *f) {
    unsigned long length;
    if (f->fd >= 0 && !file_length(f, &length)) {
        fprintf(stderr, "%s: is no regular file\n", f->path);
        exit(EXIT_UNTOUCHED);
    }
}

void file_seek(const file *f, unsigned long place) {
    if (lseek(f->fd, (off_t)place, SEEK_SET) < 0)
        fail(f->path, "lseek");
}

size_t file_read(const file *f, void *bytes, size_t room) {
    ssize_t got;
    do
        got = read(f->fd, bytes, room);
    while (got < 0 && errno == EINTR);
    if (got < 0)
        fail(f->path, "read");
    return (size_t)got;
}

size_t file_read_full(const file *f, void *bytes, size_t room) {
    size_t length = 0;
    size_t got = 1;
    while (length < room && got > 0) {
        got = file_read(f, (char *)bytes + length, room - length);
        length += got;
    }
    return length;
}

int file_write(const file *f, const void *bytes, size_t length) {
    size_t done = 0;
    while (done < length) {
        ssize_t put = write(f->fd, (const char *)bytes + done, length - done);
        if (put >= 0)
            done += (size_t)put;
        else if (errno != EINTR)
            return -1;
    }
    return 0;
}

void file_sync(const file *f) {
    int status;
    do
        status = fsync(f->fd);
    while (status != 0 && errno == EINTR);
    if (status != 0)
        fail(f->path, "fsync");
}

/* After EINTR the descriptor is gone on Linux, so close is not tried again. */
void file_close(const file *f) {
    if (close(f->fd) != 0 && errno != EINTR)
        fail(f->path, "close");
}

void folder_sync(const char *path) {
    char name[PATH_BYTES];
    char *slash;
    file folder;
    path_join(name, path, "");
    slash = strrchr(name, '/');
    if (slash == NULL)
        strcpy(name, ".");
    else
        slash[slash == name ? 1 : 0] = '\0';
    folder = file_open(name, O_RDONLY);
    if (folder.fd < 0)
        fail(name, "open");
    file_sync(&folder);
    file_close(&folder);
}

void output_end(void) {
    if (fflush(stdout) != 0 || ferror(stdout)) {
        fprintf(stderr, "standard output: write: failed\n");
        exit(EXIT_SYSTEM);
    }
}

void path_join(char *joined, const char *path, const char *suffix) {
    if (strlen(path) + strlen(suffix) >= PATH_BYTES) {
        fprintf(stderr, "%s%s: the path is too long\n", path, suffix);
        exit(EXIT_SYSTEM);
    }
    strcpy(joined, path);
    strcat(joined, suffix);
}
