/* book_file.c - a book: a file of strips end to end, of either form. */
#define _POSIX_C_SOURCE 200112L
#include "book_file.h"

#include <errno.h>
#include <fcntl.h>
#include <stdio.h>
#include <stdlib.h>
#include <sys/types.h>
#include <unistd.h>

/* The lock ends with the process, however it ends. */
static void lock(const file *book) {
    struct flock whole;
    whole.l_type = F_WRLCK;
    whole.l_whence = SEEK_SET;
    whole.l_start = 0;
    whole.l_len = 0;
    if (fcntl(book->fd, F_SETLK, &whole) == 0)
        return;
    if (errno != EACCES && errno != EAGAIN)
        fail(book->path, "fcntl");
    fprintf(stderr, "%s: another process writes this book\n", book->path);
    exit(EXIT_UNTOUCHED);
}

file book_open(const char *path) {
    file book = file_open(path, O_RDWR);
    file_must_be_regular(&book);
    if (book.fd >= 0)
        lock(&book);
    return book;
}

file book_create(const char *path) {
    file book = file_open(path, O_RDWR | O_CREAT | O_EXCL);
    lock(&book);
    folder_sync(path);
    return book;
}

int book_strip(const file *book, ows_u64 place, ows_u16 *slots,
               ows_reading *strip) {
    ows_u8 bytes[OWS_STRIP_BYTES(OWS_LARGEST_COUNT)];
    size_t length;
    file_seek(book, place);
    length = file_read_full(book, bytes, sizeof bytes);
    if (length == 0)
        return 0;
    *strip = ows_read_strip(bytes, length, slots, OWS_LARGEST_COUNT);
    return 1;
}

const char *refusal_text(int refusal) {
    switch (refusal) {
    case OWS_STRIP_SHORT:
        return "under 3 bytes";
    case OWS_STRIP_FORM:
        return "first three bits neither 000 nor 111";
    case OWS_STRIP_COUNT:
        return "count above 4096";
    case OWS_STRIP_CUT:
        return "items run past the last byte";
    case OWS_STRIP_RUN:
        return "a run of gaps past the count or after a run shorter than 256";
    case OWS_STRIP_PADDING:
        return "a padding bit is 1";
    default:
        return "not a refusal of a strip";
    }
}

static int truncated(const file *book, ows_u64 length) {
    int status;
    do
        status = ftruncate(book->fd, (off_t)length);
    while (status != 0 && errno == EINTR);
    return status == 0;
}

void book_cut(const file *book, ows_u64 length) {
    ows_u64 present;
    if (file_length(book, &present) && present > length &&
        !truncated(book, length))
        fail(book->path, "ftruncate");
}

/* Where the write fails, for instance on a full disk, the part written is cut
 * off again. If that fails too, the next start does it. */
void book_append(const file *book, ows_u64 end, const ows_u8 *strip,
                 size_t length) {
    file_seek(book, end);
    if (file_write(book, strip, length) != 0) {
        int reason = errno;
        (void)truncated(book, end);
        errno = reason;
        fail(book->path, "write");
    }
    file_sync(book);
}
