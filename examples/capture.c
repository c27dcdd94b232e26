/*
 * capture.c - captures the samples of one lane.
 *
 *     capture LANE RECORD BOOK [LINE]
 *
 * reads the line's bytes from the file LINE or else from standard input, feeds
 * them to the receiver by whole frames, in the pieces that read() gives, and
 * puts the items as strips of lane LANE (0 to 255) and of form one into BOOK,
 * behind the strips of either form that are there. What must outlive the
 * process is in RECORD; a restart takes it up.
 *
 * How nothing that was fed is lost, whenever the process is killed or the
 * power fails:
 *   - After each feeding RECORD is replaced as a whole: by the receiver's
 *     record, the number of bytes fed, the book's length, and the items of the
 *     open strip, which are handed out and not yet in the book.
 *   - A full strip is written at the book's end and brought to the disk. Only
 *     then a RECORD tells the new length and an open strip with no items.
 *   - A start cuts the book to the length in RECORD. What lies behind it is a
 *     strip whose items are still in RECORD, and is written again.
 *   - A file LINE is read on from the byte after the last one that RECORD
 *     counts. Bytes that were read from a pipe, and that RECORD did not count
 *     yet when the process died, can't be had again.
 * So any signal may stop the program. The price is that each feeding waits for
 * the disk; PIECE_BYTES and STRIP_ITEMS say how much is fed at a time.
 *
 * With no RECORD, or one that is spoiled or of version 1, which is set aside,
 * the program begins with a fresh receiver at the end of the book, and at the
 * first byte of a file LINE. Then it walks the book first, to see that it is
 * whole; with a good RECORD the book's strips are not read again. A RECORD of
 * version 2 is good; it has no sums, which are then 0.
 *
 * It prints each byte of the line in which lock was found or lost, counted from
 * 0 and over restarts, and at the end one line with the totals and the sums.
 * These are ones minus zeros of the frames since the last lock, and the lowest
 * and the highest that this was at a frame's end. On a sound line the two are
 * at most 32 apart; where they are further an engineer sees that bits arrive
 * wrong, before lock is lost.
 *
 * Exit status: 0 at the line's end; 1 where RECORD, BOOK and LINE do not fit
 * one another or another process writes the book, and all were left as they
 * are; 2 where a system call failed or the arguments are wrong.
 */
#define _POSIX_C_SOURCE 200112L
#include "book_file.h"
#include "files.h"
#include "owsopel.h"
#include "record_file.h"

#include <fcntl.h>
#include <signal.h>
#include <stdio.h>
#include <stdlib.h>
#include <string.h>
#include <unistd.h>

#define PIECE_BYTES 4096

static const char *const mode_names[] = {"Hunt", "Flash", "First", "Prove",
                                         "Locked"};

/* A call was refused that can't be, as long as the memory is sound. */
static void refused(const char *call, int number) {
    fprintf(stderr, "%s: refused with %d\n", call, number);
    exit(EXIT_UNTOUCHED);
}

/* ---- Feeding ---- */

/* Walks over bytes that were fed, from the record before them, and prints each
 * one in which lock was found or lost. Records are values, so this changes
 * nothing. A byte gives at most one item. */
static void report_changes(ows_receiver r, const ows_u8 *bytes, size_t length,
                           ows_u64 place) {
    size_t i;
    for (i = 0; i < length; i++, place++) {
        ows_u16 item;
        ows_fed fed = ows_feed_frames(r, bytes + i, 1, &item, 1);
        if (r.mode != OWS_LOCKED && fed.receiver.mode == OWS_LOCKED)
            printf("lock found at byte %lu\n", place);
        if (r.mode == OWS_LOCKED && fed.receiver.mode != OWS_LOCKED)
            printf("lock lost at byte %lu\n", place);
        r = fed.receiver;
    }
}

/* Feeds bytes until they are used or the open strip is full. Returns the bytes
 * used. A lock that was lost and found again among them shows in the losses. */
static size_t feed(capture *c, const ows_u8 *bytes, size_t length) {
    ows_receiver before = c->receiver;
    ows_fed fed = ows_feed_frames(before, bytes, length, c->items + c->count,
                                  STRIP_ITEMS - c->count);
    if (fed.refusal != OWS_TAKEN)
        refused("ows_feed_frames", fed.refusal);
    if ((before.mode == OWS_LOCKED) != (fed.receiver.mode == OWS_LOCKED) ||
        before.losses != fed.receiver.losses)
        report_changes(before, bytes, fed.bytes, c->line_bytes);
    c->receiver = fed.receiver;
    c->count += (ows_u32)fed.slots;
    c->line_bytes += fed.bytes;
    return fed.bytes;
}

/* Puts the open strip into the book; RECORD has its items already. */
static void close_strip(capture *c, const char *record, const file *book) {
    ows_u8 strip[OWS_STRIP_BYTES(STRIP_ITEMS)];
    ows_written written = ows_write_strip((ows_u8)c->lane, c->items, c->count,
                                          strip, sizeof strip);
    if (written.refusal != OWS_TAKEN)
        refused("ows_write_strip", written.refusal);
    book_append(book, c->book_bytes, strip, written.bytes);
    c->book_bytes += written.bytes;
    c->book_strips++;
    c->count = 0;
    record_save(record, c);
}

/* Captures until the line ends. */
static void run(capture *c, const file *line, const char *record,
                const file *book) {
    ows_u8 piece[PIECE_BYTES];
    size_t length;
    while ((length = file_read(line, piece, sizeof piece)) > 0) {
        size_t used = 0;
        while (used < length) {
            if (c->count == STRIP_ITEMS)
                close_strip(c, record, book);
            used += feed(c, piece + used, length - used);
            record_save(record, c);
        }
    }
    if (c->count > 0)
        close_strip(c, record, book);
}

/* ---- Starting ---- */

/* With a good RECORD: looks whether lane, book and line fit it, and only then
 * cuts the book. */
static void take_up(const capture *c, ows_u32 lane, const char *record,
                    const file *book, const file *line) {
    ows_u64 book_bytes, line_bytes;
    int is_file = file_length(line, &line_bytes);
    file_length(book, &book_bytes);
    if (c->lane != lane)
        fprintf(stderr, "%s: is of lane %u; nothing was changed\n", record,
                c->lane);
    else if (book_bytes < c->book_bytes)
        fprintf(stderr,
                "%s: has %lu bytes, %s tells %lu; nothing was changed\n",
                book->path, book_bytes, record, c->book_bytes);
    else if (is_file && line_bytes < c->line_bytes)
        fprintf(stderr,
                "%s: has %lu bytes, %s tells %lu; nothing was changed\n",
                line->path, line_bytes, record, c->line_bytes);
    else {
        book_cut(book, c->book_bytes);
        printf("%s: going on at byte %lu in mode %s\n", record, c->line_bytes,
               mode_names[c->receiver.mode]);
        return;
    }
    exit(EXIT_UNTOUCHED);
}

/* With no RECORD or a spoiled one: begins at the end of the book, after a walk
 * over its strips. */
static void begin(capture *c, ows_u32 lane, const file *book) {
    ows_u16 slots[OWS_LARGEST_COUNT];
    ows_reading strip;
    c->lane = lane;
    c->receiver = ows_fresh();
    c->line_bytes = 0;
    c->book_bytes = 0;
    c->book_strips = 0;
    c->count = 0;
    while (book->fd >= 0 && book_strip(book, c->book_bytes, slots, &strip)) {
        if (strip.refusal != OWS_TAKEN) {
            fprintf(stderr,
                    "%s: strip at byte %lu refused with %d (%s); nothing was "
                    "changed\n",
                    book->path, c->book_bytes, strip.refusal,
                    refusal_text(strip.refusal));
            exit(EXIT_UNTOUCHED);
        }
        c->book_bytes += strip.used;
        c->book_strips++;
    }
}

/* Loads RECORD, or begins without it. */
static void start(capture *c, ows_u32 lane, const char *record,
                  const file *book, const file *line) {
    const char *why;
    char aside[PATH_BYTES];
    switch (record_load(record, c, &why)) {
    case RECORD_GOOD:
        take_up(c, lane, record, book, line);
        break;
    case RECORD_SPOILED:
        begin(c, lane, book);
        record_set_aside(record, aside);
        fprintf(stderr,
                "%s: refused with %d (%s); it is kept as %s; starting with a "
                "fresh receiver\n",
                record, OWS_RECORD, why, aside);
        break;
    default:
        begin(c, lane, book);
        printf("%s: not there; starting with a fresh receiver\n", record);
    }
}

/* ---- The program ---- */

/* The lane that the text tells, or -1. */
static int lane_of(const char *text) {
    int lane = 0;
    if (*text == '\0')
        return -1;
    for (; *text != '\0'; text++) {
        if (*text < '0' || *text > '9')
            return -1;
        lane = 10 * lane + (*text - '0');
        if (lane > 255)
            return -1;
    }
    return lane;
}

static file open_line(const char *path) {
    file line;
    line.fd = STDIN_FILENO;
    line.path = "standard input";
    if (path != NULL) {
        line = file_open(path, O_RDONLY);
        if (line.fd < 0)
            fail(path, "open");
    }
    return line;
}

static void report(const capture *c) {
    const ows_receiver *r = &c->receiver;
    printf("bytes %lu, samples %lu, gaps %lu, losses %lu, strips %lu, "
           "mode %s, sum %d, lowest %d, highest %d\n",
           c->line_bytes, r->samples, r->gaps, r->losses, c->book_strips,
           mode_names[r->mode], r->sum, r->lowest, r->highest);
    output_end();
}

int main(int argc, char **argv) {
    static capture c;
    file line, book;
    ows_u64 length;
    int lane = argc == 4 || argc == 5 ? lane_of(argv[1]) : -1;
    if (lane < 0 || strcmp(argv[2], argv[3]) == 0) {
        fprintf(stderr, "usage: capture LANE RECORD BOOK [LINE]\n"
                        "LANE is 0 to 255\n");
        return EXIT_SYSTEM;
    }
    streams_must_be_open();
    /* Reports that can't be printed do not stop the capture. */
    signal(SIGPIPE, SIG_IGN);
    setvbuf(stdout, NULL, _IOLBF, BUFSIZ);
    line = open_line(argc == 5 ? argv[4] : NULL);
    book = book_open(argv[3]);
    start(&c, (ows_u32)lane, argv[2], &book, &line);
    if (book.fd < 0)
        book = book_create(argv[3]);
    if (file_length(&line, &length))
        file_seek(&line, c.line_bytes);
    run(&c, &line, argv[2], &book);
    report(&c);
    return 0;
}
