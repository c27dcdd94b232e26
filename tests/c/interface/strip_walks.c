/* Whatever bytes there are: reading, checking and converting beside the rules.
 * The bytes are strips of both forms, followed by others, cut at each byte and
 * changed in each bit, and random ones. */
#include "strips.h"

#include <string.h>

#define MOST_ITEMS 320

/* Conversions of a strip that is taken. */
static void check_converted(const ows_u8 *bytes, size_t bytes_len,
                            const ows_reading *reading, const ows_u16 *items) {
    static ows_u8 strip[LONGEST];
    int form;
    for (form = 1; form <= FORMS; form++) {
        size_t written =
            rule_write(form, reading->lane, items, reading->count, strip);
        CHECK(written <= OWS_STRIP_BYTES(reading->count));
        check_convert(form, bytes, bytes_len, written, reading->used, strip,
                      written);
        check_convert(form, bytes, bytes_len, written + 5, reading->used, strip,
                      written);
        check_no_convert(form, bytes, bytes_len, written - 1, OWS_BUFFER_SHORT);
    }
}

/* Every call, with as many slots as the bytes tell items, with more and with
 * fewer. */
static void check_as_ruled(const ows_u8 *bytes, size_t bytes_len) {
    static ows_u16 items[OWS_LARGEST_COUNT];
    ows_reading want = rule_read(bytes, bytes_len, OWS_LARGEST_COUNT, items);
    size_t slots = 1;
    int form;
    if (want.refusal != OWS_STRIP_SHORT && want.refusal != OWS_STRIP_FORM &&
        want.refusal != OWS_STRIP_COUNT) {
        slots = (size_t)(bytes[0] & 0x1F) << 8 | bytes[1];
        if (slots > 0) {
            check_no_read(bytes, bytes_len, slots - 1, OWS_SLOTS_FEW);
        }
    }
    check_read(bytes, bytes_len, slots, &want, items);
    check_read(bytes, bytes_len, slots + 3, &want, items);
    if (want.refusal == OWS_TAKEN) {
        check_converted(bytes, bytes_len, &want, items);
    } else {
        for (form = 1; form <= FORMS; form++) {
            check_no_convert(form, bytes, bytes_len, 0, want.refusal);
            check_no_convert(form, bytes, bytes_len, 20, want.refusal);
        }
    }
}

/* The strip of the items in each form, cut at each byte, with bytes after it,
 * and with each bit changed. */
static void check_spoiled_strips(const ows_u16 *items, size_t count) {
    static ows_u8 strip[OWS_STRIP_BYTES(MOST_ITEMS) + 2];
    size_t bytes, length, place;
    int form;
    for (form = 1; form <= FORMS; form++) {
        bytes = rule_write(form, 77, items, count, strip);
        strip[bytes] = strip[bytes + 1] = 0xFF;
        for (length = 0; length <= bytes + 2; length++) {
            check_case("bytes", length);
            check_as_ruled(strip, length);
        }
        for (place = 0; place < 8 * bytes; place++) {
            ows_u8 bit = (ows_u8)(0x80 >> place % 8);
            check_case("changed bit", place);
            strip[place / 8] ^= bit;
            check_as_ruled(strip, bytes + place % 2);
            strip[place / 8] ^= bit;
        }
    }
}

static void check_all_spoiled(void) {
    static const ows_u16 few[9] = {16384, 0,     16383, 16384, 16384,
                                   16384, 16384, 5461,  16384};
    static ows_u16 runs[MOST_ITEMS];
    size_t i;
    check_spoiled_strips(few, 0);
    check_spoiled_strips(few, LENGTH(few));
    for (i = 0; i < MOST_ITEMS; i++) {
        runs[i] = (ows_u16)(i == 3 || i == 260 || i == 261 ? i : OWS_GAP);
    }
    check_spoiled_strips(runs, MOST_ITEMS);
    runs[3] = OWS_GAP;
    check_spoiled_strips(runs, 263);
}

/* The strip's bytes in each form: 15 bits for a sample; one for a gap in form
 * one, nine for a run of up to 256 in form two. */
static void check_lengths(const ows_u16 *items, size_t count) {
    static ows_u8 buf[LONGEST];
    size_t gaps = 0, runs = 0, run = 0, samples, i;
    for (i = 0; i < count; i++) {
        run = items[i] == OWS_GAP ? run + 1 : 0;
        gaps += run > 0;
        runs += run % 256 == 1;
    }
    samples = count - gaps;
    CHECK_IS(ows_write_strip(0, items, count, buf, LONGEST).bytes,
             (24 + 15 * samples + gaps + 7) / 8);
    CHECK_IS(ows_write_short_strip(0, items, count, buf, LONGEST).bytes,
             (24 + 15 * samples + 9 * runs + 7) / 8);
}

/* The strip of the items in each form, with up to six bytes of any kind after
 * it. They do not matter. */
static void check_followed_strips(const ows_u16 *items, size_t count) {
    static const ows_u8 kinds[] = {0x00, 0x01, 0x80, 0xFF};
    ows_u8 strip[OWS_STRIP_BYTES(16) + 6];
    size_t kind, after;
    int form;
    for (form = 1; form <= FORMS; form++) {
        size_t bytes = rule_write(form, 78, items, count, strip);
        for (kind = 0; kind < LENGTH(kinds); kind++) {
            memset(strip + bytes, kinds[kind], 6);
            for (after = 0; after <= 6; after++) {
                check_case("bytes after", after);
                CHECK_IS(ows_check_strip(strip, bytes + after).used, bytes);
                check_as_ruled(strip, bytes + after);
            }
        }
    }
}

/* Gaps after up to three samples. */
static void check_all_followed(void) {
    ows_u16 items[16];
    size_t samples, gaps, i;
    for (samples = 0; samples <= 3; samples++) {
        for (gaps = 0; gaps <= 13; gaps++) {
            for (i = 0; i < samples + gaps; i++) {
                items[i] = (ows_u16)(i < samples ? 5461 * i : OWS_GAP);
            }
            check_lengths(items, samples + gaps);
            check_followed_strips(items, samples + gaps);
        }
    }
}

/* Bytes of which most are 0 or nearly so, which makes short runs, and a count
 * that is mostly small. */
static void check_random(void) {
    size_t i;
    int number;
    for (number = 0; number < 600; number++) {
        ows_u8 bytes[12];
        for (i = 0; i < sizeof bytes; i++) {
            ows_u32 mask = random_number() % 2 ? 0xFF : 0x81;
            bytes[i] = (ows_u8)(random_number() >> 7 & mask);
        }
        bytes[0] = (ows_u8)(random_number() % 8 ? 0xE0 : bytes[0]);
        bytes[1] = (ows_u8)(random_number() % 8 ? bytes[1] % 8 : bytes[1]);
        check_case("random bytes", (ows_u64)number);
        check_as_ruled(bytes, 3 + random_number() % 10);
    }
}

/* As many items as there can be: one gap for so many items, all others samples
 * or the other way round. */
static void check_longest(size_t every, int is_gap) {
    static ows_u16 items[OWS_LARGEST_COUNT];
    static ows_u8 strip[LONGEST];
    size_t i, bytes;
    int form;
    check_case("every", every);
    for (i = 0; i < LENGTH(items); i++) {
        int gap = (i % every == 0) == is_gap;
        items[i] = (ows_u16)(gap ? OWS_GAP : random_number() % 16384);
    }
    check_lengths(items, LENGTH(items));
    for (form = 1; form <= FORMS; form++) {
        bytes = rule_write(form, 255, items, LENGTH(items), strip);
        check_write(form, 255, items, LENGTH(items), bytes, OWS_TAKEN, strip,
                    bytes);
        check_as_ruled(strip, bytes);
        check_as_ruled(strip, bytes - 1);
        check_as_ruled(strip, bytes / 2);
    }
}

void check_strip_walks(void) {
    static const size_t every[] = {1, 2, 3, 11, 256, 257, 300, 4096};
    size_t i;
    check_all_spoiled();
    check_all_followed();
    check_random();
    for (i = 0; i < LENGTH(every); i++) {
        check_longest(every[i], 1);
        check_longest(every[i], 0);
    }
}
