/*
 * show_book.c - shows what is in a book.
 *
 *     show_book BOOK       one line for each strip, of form one or two
 *     show_book -i BOOK    one line for each item: the sample, or "gap"
 *
 * Exit status: 0; 1 where a strip is refused; 2 where a system call failed or
 * the arguments are wrong.
 */
#define _POSIX_C_SOURCE 200112L
#include "book_file.h"
#include "files.h"
#include "owsopel.h"

#include <fcntl.h>
#include <stdio.h>
#include <string.h>

static void show_items(const ows_u16 *items, size_t count) {
    size_t i;
    for (i = 0; i < count; i++) {
        if (items[i] == OWS_GAP)
            puts("gap");
        else
            printf("%u\n", items[i]);
    }
}

static void show_strip(const ows_reading *strip, const ows_u16 *items,
                       ows_u64 place) {
    unsigned gaps = 0;
    size_t i;
    for (i = 0; i < strip->count; i++)
        gaps += items[i] == OWS_GAP;
    printf("byte %lu: lane %u, form %u, items %u, samples %u, gaps %u\n", place,
           strip->lane, strip->form, strip->count, strip->count - gaps, gaps);
}

/* Shows the book strip by strip. Returns the refusal that ended it, or 0. */
static int show(const file *book, int as_items) {
    ows_u16 items[OWS_LARGEST_COUNT];
    ows_reading strip;
    ows_u64 place = 0;
    while (book_strip(book, place, items, &strip)) {
        if (strip.refusal != OWS_TAKEN) {
            fflush(stdout);
            fprintf(stderr, "%s: strip at byte %lu refused with %d (%s)\n",
                    book->path, place, strip.refusal,
                    refusal_text(strip.refusal));
            return strip.refusal;
        }
        if (as_items)
            show_items(items, strip.count);
        else
            show_strip(&strip, items, place);
        place += strip.used;
    }
    return OWS_TAKEN;
}

int main(int argc, char **argv) {
    int as_items = argc == 3 && strcmp(argv[1], "-i") == 0;
    int refusal;
    file book;
    if (argc != 2 && !as_items) {
        fprintf(stderr, "usage: show_book [-i] BOOK\n");
        return EXIT_SYSTEM;
    }
    book = file_open(argv[argc - 1], O_RDONLY);
    if (book.fd < 0)
        fail(book.path, "open");
    file_must_be_regular(&book);
    refusal = show(&book, as_items);
    output_end();
    return refusal == OWS_TAKEN ? 0 : EXIT_UNTOUCHED;
}
