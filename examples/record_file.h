/*
 * record_file.h - the record file: what a capture keeps over restarts.
 *
 * Its layout, each number with its low byte first:
 *     8 bytes   the version mark: "OWSREC3" and a line feed
 *     4         lane
 *     4 each    the receiver's mode, bits, count, frame, word, read, results,
 *               state, clock
 *     8 each    the receiver's samples, gaps, losses
 *     4 each    the receiver's sum, lowest, highest, in two's complement
 *     8 each    bytes of the line fed, bytes of the book, strips of the book
 *     4         count of the open strip's items
 *     2 each    the open strip's items
 *     4         CRC-32 of all bytes before
 *
 * Version 2 has the mark "OWSREC2" and no sums. A file of it is taken up with
 * sums 0, which then begin at the restart in place of the lock; the next save
 * is of version 3.
 *
 * Version 1 has the mark "OWSREC1". Its layout is that of version 2, but two
 * fields mean something else in Locked: in the place of the results are the
 * faults in a row, and clock is the last frame's clock bit, not the one
 * expected next. The numbers can be in range here, so a file with this mark is
 * refused whatever it holds.
 */
#ifndef RECORD_FILE_H
#define RECORD_FILE_H

#include "owsopel.h"

/* A strip is put into the book when it has so many items: 1 to
 * OWS_LARGEST_COUNT. The record file is written after each feeding and holds
 * the open strip, so this is kept small. A record file with more items is
 * refused. */
#define STRIP_ITEMS 1024

/* The bytes of a record file with so many items, and of the largest. */
#define RECORD_BYTES(items) (116 + 2 * (size_t)(items))
#define RECORD_LARGEST RECORD_BYTES(STRIP_ITEMS)

typedef struct capture {
    ows_u32 lane;
    ows_receiver receiver;
    ows_u64 line_bytes;  /* bytes of the line fed so far */
    ows_u64 book_bytes;  /* the book's length */
    ows_u64 book_strips; /* the book's strips */
    ows_u32 count;       /* items of the open strip: not yet in the book */
    ows_u16 items[STRIP_ITEMS];
} capture;

/* record_image: puts the file's bytes into RECORD_LARGEST bytes and returns
 * their number. The count must be at most STRIP_ITEMS. */
size_t record_image(const capture *c, ows_u8 *image);

/* record_read: takes the file's bytes apart. Returns NULL, or what is wrong
 * with them; then the capture holds nothing of use. */
const char *record_read(capture *c, const ows_u8 *image, size_t length);

/* record_load: what was found in the record file. With RECORD_SPOILED, which
 * version 1 is too, why says what is wrong. */
#define RECORD_NONE 0
#define RECORD_GOOD 1
#define RECORD_SPOILED 2
int record_load(const char *path, capture *c, const char **why);

/* record_save: puts a new record file in the place of the old one. Whenever
 * the process is killed or the power fails, the old one or the new one is
 * there, whole. */
void record_save(const char *path, const capture *c);

/* record_set_aside: renames a refused record file to PATH.spoiled, or, where
 * there is one, to PATH.spoiled.2 and so on. Puts the new name into
 * PATH_BYTES bytes. */
void record_set_aside(const char *path, char *name);

#endif
