/*
 * mixed_book.c - converts the strips of a book to the forms given.
 *
 *     mixed_book FORMS <BOOK >CONVERTED
 *
 * FORMS has the form of each strip in turn, 1 or 2, and begins again at its
 * end: with 12 the forms alternate. The exit status is 1 where a strip is
 * refused.
 */
#include "owsopel.h"

#include <stdio.h>
#include <string.h>

#define BOOK_BYTES 1000000

static ows_u8 book[BOOK_BYTES];

int main(int argc, char **argv) {
    ows_u8 strip[OWS_STRIP_BYTES(OWS_LARGEST_COUNT)];
    ows_converted converted;
    size_t length, forms, place = 0, strips = 0;
    if (argc != 2 || (forms = strlen(argv[1])) == 0)
        return 2;
    length = fread(book, 1, sizeof book, stdin);
    while (place < length) {
        if (argv[1][strips % forms] == '1')
            converted = ows_expand_strip(book + place, length - place, strip,
                                         sizeof strip);
        else
            converted = ows_shorten_strip(book + place, length - place, strip,
                                          sizeof strip);
        if (converted.refusal != OWS_TAKEN)
            return 1;
        fwrite(strip, 1, converted.bytes, stdout);
        place += converted.used;
        strips++;
    }
    return 0;
}
