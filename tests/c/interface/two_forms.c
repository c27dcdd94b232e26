/* Strips in both forms: written, read and converted from each form to each. */
#include "strips.h"

#include <string.h>

typedef struct example {
    ows_u8 lane;
    size_t count;
    ows_u16 items[4];
    size_t bytes[FORMS];
    ows_u8 strips[FORMS][9]; /* what follows the strip is not its concern */
} example;

/* By hand: document 01's trial values, and gaps between samples. */
static const example examples[] = {
    {5,
     2,
     {1, 16384},
     {5, 6},
     {{0x00, 0x02, 0x05, 0x80, 0x02, 0xFF},
      {0xE0, 0x02, 0x05, 0x80, 0x02, 0x00, 0xFF}}},
    {0,
     1,
     {16383},
     {5, 5},
     {{0x00, 0x01, 0x00, 0xFF, 0xFE, 0xFF},
      {0xE0, 0x01, 0x00, 0xFF, 0xFE, 0xFF}}},
    {7, 0, {0}, {3, 3}, {{0x00, 0x00, 0x07, 0xFF}, {0xE0, 0x00, 0x07, 0xFF}}},
    {255,
     2,
     {16384, 8192},
     {5, 6},
     {{0x00, 0x02, 0xFF, 0x60, 0x00, 0xFF},
      {0xE0, 0x02, 0xFF, 0x00, 0x60, 0x00, 0xFF}}},
    {3,
     3,
     {16384, 16384, 16384},
     {4, 5},
     {{0x00, 0x03, 0x03, 0x00, 0xFF}, {0xE0, 0x03, 0x03, 0x01, 0x00, 0xFF}}},
    {9,
     4,
     {16384, 16384, 16383, 16384},
     {6, 8},
     {{0x00, 0x04, 0x09, 0x3F, 0xFF, 0x80, 0xFF},
      {0xE0, 0x04, 0x09, 0x00, 0xFF, 0xFF, 0x00, 0x00, 0xFF}}},
};

/* Converts the strip of a form to each form: into as many bytes as it needs,
 * into more, and into each lower number. */
static void check_example_converted(const example *e, int from) {
    const ows_u8 *bytes = e->strips[from - 1];
    size_t used = e->bytes[from - 1], room;
    int to;
    for (to = 1; to <= FORMS; to++) {
        const ows_u8 *strip = e->strips[to - 1];
        size_t written = e->bytes[to - 1];
        check_convert(to, bytes, used, written, used, strip, written);
        check_convert(to, bytes, 9, written + 9, used, strip, written);
        for (room = 0; room < written; room++) {
            check_no_convert(to, bytes, used, room, OWS_BUFFER_SHORT);
        }
    }
}

static void check_example(const example *e, int form) {
    const ows_u8 *strip = e->strips[form - 1];
    size_t used = e->bytes[form - 1], bytes;
    ows_reading whole = {0, 0, 0, 0, 0};
    whole.lane = e->lane;
    whole.count = (ows_u16)e->count;
    whole.form = (ows_u8)form;
    whole.used = used;
    check_write(form, e->lane, e->items, e->count, used, OWS_TAKEN, strip,
                used);
    check_write(form, e->lane, e->items, e->count, 20, OWS_TAKEN, strip, used);
    check_read(strip, used, e->count, &whole, e->items);
    check_read(strip, 9, 7, &whole, e->items);
    for (bytes = 0; bytes < used; bytes++) {
        check_write(form, e->lane, e->items, e->count, bytes, OWS_BUFFER_SHORT,
                    NULL, 0);
        check_refused_strip(strip, bytes,
                            bytes < 3 ? OWS_STRIP_SHORT : OWS_STRIP_CUT);
    }
    for (bytes = 0; bytes < e->count; bytes++) {
        check_no_read(strip, used, bytes, OWS_SLOTS_FEW);
    }
    check_example_converted(e, form);
}

/* Gaps alone: 256 and fewer are one run, and each 256 more are one more. */
static void check_gaps(size_t count, const ows_u8 *runs, size_t runs_len) {
    static ows_u16 items[4096];
    static ows_u8 strips[FORMS][515];
    size_t bytes = 3 + (count + 7) / 8, short_bytes = 3 + runs_len, i;
    ows_reading whole = {0, 6, 0, 1, 0};
    check_case("gaps", count);
    for (i = 0; i < count; i++) {
        items[i] = OWS_GAP;
    }
    memset(strips, 0, sizeof strips);
    for (i = 0; i < FORMS; i++) {
        strips[i][0] = (ows_u8)((i == 0 ? 0x00 : 0xE0) | count >> 8);
        strips[i][1] = (ows_u8)(count & 0xFF);
        strips[i][2] = 6;
    }
    memcpy(strips[1] + 3, runs, runs_len);
    whole.count = (ows_u16)count;
    whole.used = bytes;
    check_read(strips[0], bytes, count, &whole, items);
    check_convert(2, strips[0], bytes, 600, bytes, strips[1], short_bytes);
    whole.form = 2;
    whole.used = short_bytes;
    check_write(2, 6, items, count, short_bytes, OWS_TAKEN, strips[1],
                short_bytes);
    check_read(strips[1], short_bytes, count, &whole, items);
    check_convert(1, strips[1], short_bytes, bytes, short_bytes, strips[0],
                  bytes);
    check_no_read(strips[1], short_bytes, count - 1, OWS_SLOTS_FEW);
    check_refused_strip(strips[1], short_bytes - 1, OWS_STRIP_CUT);
    check_no_convert(1, strips[1], short_bytes, bytes - 1, OWS_BUFFER_SHORT);
}

static void check_runs(void) {
    static const ows_u8 of_1[] = {0x00, 0x00};
    static const ows_u8 of_2[] = {0x00, 0x80};
    static const ows_u8 of_255[] = {0x7F, 0x00};
    static const ows_u8 of_256[] = {0x7F, 0x80};
    static const ows_u8 of_257[] = {0x7F, 0x80, 0x00};
    static const ows_u8 of_511[] = {0x7F, 0xBF, 0x80};
    static const ows_u8 of_512[] = {0x7F, 0xBF, 0xC0};
    static const ows_u8 of_513[] = {0x7F, 0xBF, 0xC0, 0x00};
    static const ows_u8 of_4095[] = {0x7F, 0xBF, 0xDF, 0xEF, 0xF7, 0xFB,
                                     0xFD, 0xFE, 0xFF, 0x7F, 0xBF, 0xDF,
                                     0xEF, 0xF7, 0xFB, 0xFD, 0xFE, 0xFE};
    static const ows_u8 of_4096[] = {0x7F, 0xBF, 0xDF, 0xEF, 0xF7, 0xFB,
                                     0xFD, 0xFE, 0xFF, 0x7F, 0xBF, 0xDF,
                                     0xEF, 0xF7, 0xFB, 0xFD, 0xFE, 0xFF};
    check_gaps(1, of_1, sizeof of_1);
    check_gaps(2, of_2, sizeof of_2);
    check_gaps(255, of_255, sizeof of_255);
    check_gaps(256, of_256, sizeof of_256);
    check_gaps(257, of_257, sizeof of_257);
    check_gaps(511, of_511, sizeof of_511);
    check_gaps(512, of_512, sizeof of_512);
    check_gaps(513, of_513, sizeof of_513);
    check_gaps(4095, of_4095, sizeof of_4095);
    check_gaps(4096, of_4096, sizeof of_4096);
}

/* 4096 items are taken and 4097 refused, before a wrong item, and that before
 * a short buffer. */
static void check_limits(void) {
    static ows_u16 items[4097];
    static ows_u8 strip[LONGEST];
    size_t i;
    for (i = 0; i < 4097; i++) {
        items[i] = (ows_u16)(i * 4 % 16384);
    }
    CHECK_IS(rule_write(2, 9, items, 4096, strip), LONGEST);
    check_write(2, 9, items, 4096, LONGEST, OWS_TAKEN, strip, LONGEST);
    check_write(2, 9, items, 4096, LONGEST - 1, OWS_BUFFER_SHORT, NULL, 0);
    check_write(2, 9, items, 4097, LONGEST + 9, OWS_ITEMS_MANY, NULL, 0);
    items[4095] = 16385;
    check_write(2, 9, items, 4097, 0, OWS_ITEMS_MANY, NULL, 0);
    check_write(2, 9, items, 4096, 0, OWS_ITEM, NULL, 0);
    check_write(2, 9, items, 4096, LONGEST, OWS_ITEM, NULL, 0);
    items[4095] = 0xFFFF;
    check_write(2, 9, items, 4096, LONGEST, OWS_ITEM, NULL, 0);
}

void check_two_forms(void) {
    size_t i;
    int form;
    for (i = 0; i < LENGTH(examples); i++) {
        check_case("example", i);
        for (form = 1; form <= FORMS; form++) {
            check_example(&examples[i], form);
        }
    }
    check_runs();
    check_case("", 0);
    check_limits();
}
