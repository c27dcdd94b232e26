/* Books of strips of both forms, and the strip calls' buffers. */
#include "strips.h"

#include <string.h>

#define STRIPS 40
#define MOST_ITEMS 700
#define BOOK_BYTES (STRIPS * OWS_STRIP_BYTES(MOST_ITEMS))

typedef struct book {
    size_t length;
    ows_u8 bytes[BOOK_BYTES];
} book;

/* The items of a strip of the book. Each has other runs of gaps, some of them
 * longer than 256. */
static size_t items_of(size_t strip, ows_u16 *items) {
    size_t count = strip * 37 % MOST_ITEMS, i;
    for (i = 0; i < count; i++) {
        items[i] = (ows_u16)(i % (strip + 1) == strip ? i : OWS_GAP);
    }
    return count;
}

/* The strips of the book, each in the form that the bit tells, again and
 * again. */
static void write_book(book *b, ows_u32 forms) {
    ows_u16 items[MOST_ITEMS];
    size_t strip;
    b->length = 0;
    for (strip = 0; strip < STRIPS; strip++) {
        size_t count = items_of(strip, items);
        ows_written written = writing_calls[forms >> strip % 8 & 1](
            (ows_u8)strip, items, count, b->bytes + b->length,
            BOOK_BYTES - b->length);
        CHECK_REFUSAL(written.refusal, OWS_TAKEN);
        b->length += written.bytes;
    }
}

/* Reads the book strip by strip, each after the bytes used. */
static void read_book(const book *b, ows_u32 forms) {
    ows_u16 items[MOST_ITEMS], slots[MOST_ITEMS];
    size_t strip, place = 0;
    for (strip = 0; strip < STRIPS; strip++) {
        size_t count = items_of(strip, items);
        ows_reading reading = ows_read_strip(
            b->bytes + place, b->length - place, slots, MOST_ITEMS);
        ows_reading checked =
            ows_check_strip(b->bytes + place, b->length - place);
        check_case("strip", strip);
        CHECK_REFUSAL(reading.refusal, OWS_TAKEN);
        CHECK_IS(reading.lane, strip);
        CHECK_IS(reading.count, count);
        CHECK_IS(reading.form, 1 + (forms >> strip % 8 & 1));
        CHECK(memcmp(slots, items, count * sizeof *items) == 0);
        CHECK_IS(checked.used, reading.used);
        place += reading.used;
    }
    CHECK_IS(place, b->length);
    CHECK_REFUSAL(ows_check_strip(b->bytes + place, 0).refusal,
                  OWS_STRIP_SHORT);
}

/* Converts the book strip by strip. */
static void convert_book(const book *from, int form, book *to) {
    size_t place = 0;
    to->length = 0;
    while (place < from->length) {
        ows_converted converted = converting_calls[form - 1](
            from->bytes + place, from->length - place, to->bytes + to->length,
            BOOK_BYTES - to->length);
        CHECK_REFUSAL(converted.refusal, OWS_TAKEN);
        if (converted.refusal != OWS_TAKEN) {
            return;
        }
        place += converted.used;
        to->length += converted.bytes;
    }
}

static void check_same(const book *one, const book *other) {
    CHECK_IS(one->length, other->length);
    CHECK(memcmp(one->bytes, other->bytes, one->length) == 0);
}

/* Books in one form and with both mixed give the same two books when all
 * strips are converted. */
static void check_mixed_books(void) {
    static const ows_u32 mixtures[] = {0x00, 0xFF, 0xAA, 0x55, 0x2C, 0xF1};
    static book one, two, mixed, converted, again;
    size_t i;
    write_book(&one, 0x00);
    write_book(&two, 0xFF);
    CHECK(two.length < one.length);
    for (i = 0; i < LENGTH(mixtures); i++) {
        write_book(&mixed, mixtures[i]);
        read_book(&mixed, mixtures[i]);
        check_case("mixture", mixtures[i]);
        convert_book(&mixed, 2, &converted);
        check_same(&converted, &two);
        convert_book(&converted, 1, &again);
        check_same(&again, &one);
        convert_book(&mixed, 1, &converted);
        check_same(&converted, &one);
        convert_book(&converted, 2, &again);
        check_same(&again, &two);
    }
    check_case("", 0);
}

/* With length 0 the pointers are not used. */
static void check_no_buffers(void) {
    static const ows_u8 strip[3] = {0xE0, 0, 7};
    static const ows_u8 untouched[3] = {1, 1, 1};
    ows_u8 buf[3] = {1, 1, 1};
    int form;
    CHECK_REFUSAL(ows_check_strip(NULL, 0).refusal, OWS_STRIP_SHORT);
    CHECK_REFUSAL(ows_read_strip(strip, 3, NULL, 0).refusal, OWS_TAKEN);
    for (form = 1; form <= FORMS; form++) {
        converting_call *convert = converting_calls[form - 1];
        CHECK_REFUSAL(convert(NULL, 0, NULL, 0).refusal, OWS_STRIP_SHORT);
        CHECK_REFUSAL(convert(NULL, 0, buf, 3).refusal, OWS_STRIP_SHORT);
        CHECK_REFUSAL(convert(strip, 3, NULL, 0).refusal, OWS_BUFFER_SHORT);
    }
    CHECK_REFUSAL(ows_write_short_strip(7, NULL, 0, NULL, 0).refusal,
                  OWS_BUFFER_SHORT);
    CHECK(memcmp(buf, untouched, 3) == 0);
    CHECK_REFUSAL(ows_write_short_strip(7, NULL, 0, buf, 3).refusal, OWS_TAKEN);
    CHECK(memcmp(buf, strip, 3) == 0);
}

void check_books(void) {
    check_mixed_books();
    check_no_buffers();
}
