/*
 * files.h - system calls that try again after EINTR, and report a failure.
 *
 * A failing call ends the program with EXIT_SYSTEM, after a line such as
 * "BOOK: write: No space left on device".
 */
#ifndef FILES_H
#define FILES_H

#include <stddef.h>

/* The exit statuses beside 0: the program found something wrong and changed
 * nothing; a system call failed or the arguments are wrong. */
#define EXIT_UNTOUCHED 1
#define EXIT_SYSTEM 2

/* The room for a path and its end. */
#define PATH_BYTES 4096

typedef struct file {
    int fd; /* -1 where the file is not there */
    const char *path;
} file;

/* fail: reports the call that failed, by errno, and ends the program. */
void fail(const char *path, const char *call);

/* streams_must_be_open: ends the program where standard input, output or errors
 * is closed. The next file opened would get its number, and reports would be
 * printed into a book. */
void streams_must_be_open(void);

/* file_open: opens a file. With no file there and no O_CREAT, fd is -1. */
file file_open(const char *path, int flags);

/* file_length: tells the length of a regular file. Returns 0, with length 0,
 * where it is no regular file (a pipe, a device) or not there. */
int file_length(const file *f, unsigned long *length);

/* file_must_be_regular: ends the program with EXIT_UNTOUCHED where a file that
 * is there is no regular one. */
void file_must_be_regular(const file *f);

/* file_seek: goes to a byte of the file. */
void file_seek(const file *f, unsigned long place);

/* file_read: what one read() gives, at most room bytes; 0 at the end. */
size_t file_read(const file *f, void *bytes, size_t room);

/* file_read_full: reads until room bytes are there or the file ends. */
size_t file_read_full(const file *f, void *bytes, size_t room);

/* file_write: writes all the bytes. Returns 0, or -1 with errno set. */
int file_write(const file *f, const void *bytes, size_t length);

/* file_sync: brings what was written to the disk. */
void file_sync(const file *f);

/* file_close: closes the file. */
void file_close(const file *f);

/* folder_sync: brings the names in the path's folder to the disk. */
void folder_sync(const char *path);

/* output_end: writes out what was printed. Ends the program where printing
 * failed, now or before. */
void output_end(void);

/* path_join: puts path and suffix end to end into PATH_BYTES bytes. */
void path_join(char *joined, const char *path, const char *suffix);

#endif
