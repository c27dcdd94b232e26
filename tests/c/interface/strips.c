/* Stored strips of form one, written and read. */
#include "strips.h"

#include <stdlib.h>
#include <string.h>

typedef struct stored {
    ows_reading reading;
    ows_u16 items[2];
    ows_u8 strip[8]; /* what follows the strip is not its concern */
} stored;

/* Document 01's trial values, and a gap before a sample in the last lane. */
static const stored strips[] = {
    {{0, 5, 2, 1, 5}, {1, 16384}, {0x00, 0x02, 0x05, 0x80, 0x02, 0xFF}},
    {{0, 0, 1, 1, 5}, {16383}, {0x00, 0x01, 0x00, 0xFF, 0xFE, 0xFF}},
    {{0, 7, 0, 1, 3}, {0}, {0x00, 0x00, 0x07, 0xFF}},
    {{0, 255, 2, 1, 5}, {16384, 8192}, {0x00, 0x02, 0xFF, 0x60, 0x00, 0xFF}},
};

static void check_few_items(void) {
    size_t i, bytes;
    for (i = 0; i < LENGTH(strips); i++) {
        const ows_u16 *items = strips[i].items;
        const ows_u8 *strip = strips[i].strip;
        const ows_reading *whole = &strips[i].reading;
        ows_u8 lane = whole->lane;
        size_t count = whole->count, used = whole->used;
        check_case("strip", i);
        check_write(1, lane, items, count, used, OWS_TAKEN, strip, used);
        check_write(1, lane, items, count, 8, OWS_TAKEN, strip, used);
        check_read(strip, used, count, whole, items);
        check_read(strip, 8, 5, whole, items);
        for (bytes = 0; bytes < used; bytes++) {
            check_write(1, lane, items, count, bytes, OWS_BUFFER_SHORT, NULL,
                        0);
            check_no_read(strip, bytes, 8,
                          bytes < 3 ? OWS_STRIP_SHORT : OWS_STRIP_CUT);
        }
    }
}

/* A case for each refusal of reading, with a later one that is true as well
 * wherever there can be one. */
static void check_refused_readings(void) {
    static const ows_u8 count_4097[3] = {0x10, 0x01, 0x00};
    static const ows_u8 count_8191[3] = {0x1F, 0xFF, 0x00};
    static const ows_u8 gaps_8[4] = {0x00, 0x08, 0x00, 0x00};
    static const ows_u8 gap_padding[4] = {0x00, 0x01, 0x00, 0x01};
    static const ows_u8 sample_padding[5] = {0x00, 0x01, 0x00, 0xFF, 0xFF};
    static const ows_u16 gaps[8] = {16384, 16384, 16384, 16384,
                                    16384, 16384, 16384, 16384};
    static const ows_reading whole = {0, 0, 8, 1, 4};
    check_no_read(count_8191, 2, 0, OWS_STRIP_SHORT);
    check_no_read(count_4097, 3, 0, OWS_STRIP_COUNT);
    check_no_read(count_4097, 3, 4097, OWS_STRIP_COUNT);
    check_no_read(count_8191, 3, 0, OWS_STRIP_COUNT);
    check_no_read(gaps_8, 3, 7, OWS_SLOTS_FEW);
    check_no_read(gap_padding, 4, 0, OWS_SLOTS_FEW);
    check_no_read(gaps_8, 3, 8, OWS_STRIP_CUT);
    check_no_read(sample_padding, 4, 1, OWS_STRIP_CUT);
    check_no_read(gap_padding, 4, 1, OWS_STRIP_PADDING);
    check_no_read(sample_padding, 5, 1, OWS_STRIP_PADDING);
    check_read(gaps_8, 4, 8, &whole, gaps);
}

/* 4096 items are taken and 4097 refused, before a wrong item, and that before
 * a short buffer. */
static void check_long_strips(void) {
    static ows_u16 items[4097];
    static ows_u8 strip[LONGEST];
    static const ows_reading of_samples = {0, 9, 4096, 1, LONGEST};
    static const ows_reading of_gaps = {0, 9, 4096, 1, 515};
    size_t i;
    ows_written written;
    for (i = 0; i < 4097; i++) {
        items[i] = (ows_u16)(i * 4 % 16384);
    }
    written = ows_write_strip(9, items, 4096, strip, sizeof strip);
    CHECK_REFUSAL(written.refusal, OWS_TAKEN);
    CHECK_IS(written.bytes, LONGEST);
    check_write(1, 9, items, 4096, LONGEST + 9, OWS_TAKEN, strip, LONGEST);
    check_write(1, 9, items, 4096, LONGEST - 1, OWS_BUFFER_SHORT, NULL, 0);
    check_read(strip, LONGEST, 4096, &of_samples, items);
    check_read(strip, LONGEST, 5000, &of_samples, items);
    check_no_read(strip, LONGEST, 4095, OWS_SLOTS_FEW);
    check_no_read(strip, LONGEST - 1, 4096, OWS_STRIP_CUT);
    check_write(1, 9, items, 4097, LONGEST + 9, OWS_ITEMS_MANY, NULL, 0);
    items[4095] = 16385;
    check_write(1, 9, items, 4097, 0, OWS_ITEMS_MANY, NULL, 0);
    check_write(1, 9, items, 4096, 0, OWS_ITEM, NULL, 0);
    check_write(1, 9, items, 4096, LONGEST, OWS_ITEM, NULL, 0);
    items[4095] = 0xFFFF;
    check_write(1, 9, items, 4096, LONGEST, OWS_ITEM, NULL, 0);
    for (i = 0; i < 4096; i++) {
        items[i] = OWS_GAP;
    }
    written = ows_write_strip(9, items, 4096, strip, sizeof strip);
    CHECK_IS(written.bytes, 515);
    check_read(strip, 515, 4096, &of_gaps, items);
}

/* With length 0 the pointers are not used. */
static void check_no_buffers(void) {
    static const ows_u8 strip[3] = {0, 0, 7};
    static const ows_u16 item[1] = {3};
    ows_u8 buf[3] = {1, 1, 1};
    ows_u16 slot[1] = {9};
    ows_reading reading = ows_read_strip(strip, 3, NULL, 0);
    CHECK_REFUSAL(reading.refusal, OWS_TAKEN);
    CHECK_IS(reading.lane, 7);
    CHECK_REFUSAL(ows_read_strip(NULL, 0, NULL, 0).refusal, OWS_STRIP_SHORT);
    CHECK_REFUSAL(ows_read_strip(NULL, 0, slot, 1).refusal, OWS_STRIP_SHORT);
    CHECK_REFUSAL(ows_write_strip(7, NULL, 0, NULL, 0).refusal,
                  OWS_BUFFER_SHORT);
    CHECK_REFUSAL(ows_write_strip(7, item, 1, NULL, 0).refusal,
                  OWS_BUFFER_SHORT);
    CHECK_REFUSAL(ows_write_strip(7, NULL, 0, buf, 3).refusal, OWS_TAKEN);
    CHECK(memcmp(buf, strip, 3) == 0);
    CHECK_IS(slot[0], 9);
}

/* Bytes after the strip are not looked at: here they have no value yet, which
 * valgrind would tell. */
static void check_bytes_after(void) {
    ows_u8 *bytes = (ows_u8 *)malloc(100);
    if (bytes != NULL) {
        memset(bytes, 0, 3);
        CHECK_IS(ows_read_strip(bytes, 100, NULL, 0).used, 3);
    }
    free(bytes);
}

void check_strips(void) {
    check_few_items();
    check_case("", 0);
    check_refused_readings();
    check_long_strips();
    check_no_buffers();
    check_bytes_after();
}
