/*
 * book_file.h - a book: a file of strips end to end, of either form.
 */
#ifndef BOOK_FILE_H
#define BOOK_FILE_H

#include "files.h"
#include "owsopel.h"

/* book_open: opens a book to be written, where it is there, and locks it
 * against a second process. */
file book_open(const char *path);

/* book_create: the same for a book that is not there. */
file book_create(const char *path);

/* book_strip: reads the strip that begins at the given byte into
 * OWS_LARGEST_COUNT slots. Returns 0 at the book's end; otherwise the strip is
 * what ows_read_strip gave, and may be refused. */
int book_strip(const file *book, ows_u64 place, ows_u16 *slots,
               ows_reading *strip);

/* refusal_text: in a few words, why a strip that book_strip read is refused
 * with this number. */
const char *refusal_text(int refusal);

/* book_cut: cuts the book to a length, where it is longer. */
void book_cut(const file *book, ows_u64 length);

/* book_append: writes a strip at the book's end, the given byte, and brings it
 * to the disk. */
void book_append(const file *book, ows_u64 end, const ows_u8 *strip,
                 size_t length);

#endif
