/* The refusals of reading, checking and converting strips, in their order. In
 * each case a later one is true as well wherever there can be one. */
#include "strips.h"

typedef struct refused {
    int refusal;
    size_t bytes_len;
    ows_u8 bytes[9];
} refused;

/* Refused by every call, whatever slots and buffer there are. */
static const refused early[] = {
    /* Under 3 bytes, of no form and of both. */
    {OWS_STRIP_SHORT, 0, {0}},
    {OWS_STRIP_SHORT, 1, {0x3F}},
    {OWS_STRIP_SHORT, 2, {0x3F, 0xFF}},
    {OWS_STRIP_SHORT, 2, {0x1F, 0xFF}},
    {OWS_STRIP_SHORT, 2, {0xFF, 0xFF}},
    /* No form, with counts above 4096 and at or below it. */
    {OWS_STRIP_FORM, 3, {0x30, 0x01, 0x00}},
    {OWS_STRIP_FORM, 3, {0x5F, 0xFF, 0x00}},
    {OWS_STRIP_FORM, 3, {0xDF, 0xFF, 0xFF}},
    {OWS_STRIP_FORM, 3, {0x80, 0x00, 0x07}},
    {OWS_STRIP_FORM, 3, {0xD0, 0x00, 0x00}},
    /* A count above 4096. */
    {OWS_STRIP_COUNT, 3, {0x10, 0x01, 0x00}},
    {OWS_STRIP_COUNT, 3, {0xF0, 0x01, 0x00}},
    {OWS_STRIP_COUNT, 3, {0xF8, 0x00, 0x00}},
    {OWS_STRIP_COUNT, 3, {0xFF, 0xFF, 0xFF}},
};

/* With too few slots refused with 11. */
static const refused late[] = {
    /* No byte for an item. */
    {OWS_STRIP_CUT, 3, {0x00, 0x01, 0x00}},
    {OWS_STRIP_CUT, 3, {0xE0, 0x01, 0x00}},
    {OWS_STRIP_CUT, 3, {0xF0, 0x00, 0x00}},
    /* A sample with eight of its 15 bits, and with seven after a run. */
    {OWS_STRIP_CUT, 4, {0xE0, 0x01, 0x00, 0xFF}},
    {OWS_STRIP_CUT, 5, {0xE0, 0x02, 0x00, 0x00, 0x7F}},
    /* A run with its first bit alone, and with eight of its nine bits. */
    {OWS_STRIP_CUT, 5, {0xE0, 0x02, 0x00, 0xFF, 0xFE}},
    {OWS_STRIP_CUT, 4, {0xE0, 0x01, 0x00, 0x00}},
    /* The same where the run would go past the count. */
    {OWS_STRIP_CUT, 4, {0xE0, 0x01, 0x00, 0x7F}},
    {OWS_STRIP_CUT, 4, {0xE0, 0x01, 0x00, 0x40}},
    /* The same with seven bits of a run after a run of 1 and one of 255, and
     * with eight. */
    {OWS_STRIP_CUT, 5, {0xE0, 0x02, 0x00, 0x00, 0x00}},
    {OWS_STRIP_CUT, 5, {0xE1, 0x00, 0x00, 0x7F, 0x00}},
    {OWS_STRIP_CUT, 7, {0xE0, 0x05, 0x00, 0x80, 0x02, 0x00, 0x00}},
    /* Nothing after a sample and a run. */
    {OWS_STRIP_CUT, 6, {0xE0, 0x03, 0x05, 0x80, 0x02, 0x00}},
    /* A run past the count, by one and by 255, the first or not, with padding
     * bits that are 1 and with bits missing for a later item. */
    {OWS_STRIP_RUN, 5, {0xE0, 0x01, 0x00, 0x00, 0x80}},
    {OWS_STRIP_RUN, 5, {0xE0, 0x01, 0x00, 0x7F, 0xFF}},
    {OWS_STRIP_RUN, 5, {0xE0, 0xFF, 0x00, 0x7F, 0x80}},
    {OWS_STRIP_RUN, 6, {0xE0, 0x02, 0x05, 0x80, 0x02, 0x01}},
    {OWS_STRIP_RUN, 6, {0xE1, 0x01, 0x00, 0x7F, 0x80, 0x40}},
    {OWS_STRIP_RUN, 6, {0xE1, 0xFF, 0x00, 0x7F, 0xBF, 0xC0}},
    /* A run of 1 after a run of 1 and after one of 255, which fit the count;
     * one of 256 after one of 255; one that goes past the count as well. */
    {OWS_STRIP_RUN, 6, {0xE0, 0x02, 0x00, 0x00, 0x00, 0x00}},
    {OWS_STRIP_RUN, 6, {0xE1, 0x00, 0x00, 0x7F, 0x00, 0x00}},
    {OWS_STRIP_RUN, 6, {0xE1, 0xFF, 0x00, 0x7F, 0x3F, 0xC0}},
    {OWS_STRIP_RUN, 6, {0xE0, 0x02, 0x00, 0x00, 0x3F, 0xFF}},
    /* The third run, after 256 and 1. */
    {OWS_STRIP_RUN, 7, {0xE1, 0x02, 0x00, 0x7F, 0x80, 0x00, 0x00}},
    /* A run that breaks the rule, and a later item that is cut. */
    {OWS_STRIP_RUN, 6, {0xE0, 0x03, 0x00, 0x00, 0x00, 0x3F}},
    {OWS_STRIP_RUN, 6, {0xEF, 0xFF, 0x00, 0x00, 0x00, 0x00}},
    /* Padding. */
    {OWS_STRIP_PADDING, 4, {0x00, 0x01, 0x00, 0x01}},
    {OWS_STRIP_PADDING, 5, {0x00, 0x01, 0x00, 0xFF, 0xFF}},
    {OWS_STRIP_PADDING, 5, {0xE0, 0x01, 0x00, 0xFF, 0xFF}},
    {OWS_STRIP_PADDING, 5, {0xE0, 0x01, 0x00, 0x00, 0x40}},
    {OWS_STRIP_PADDING, 5, {0xE0, 0x01, 0x00, 0x00, 0x01}},
    {OWS_STRIP_PADDING, 5, {0xE1, 0x00, 0x00, 0x7F, 0xFF}},
    {OWS_STRIP_PADDING, 6, {0xE1, 0x01, 0x00, 0x7F, 0x80, 0x01}},
};

/* These are taken: their rules end just short of those above. */
static void check_taken(void) {
    static const ows_u8 sample_between[9] = {0xE0, 0x03, 0x00, 0x00, 0x40,
                                             0x00, 0x00, 0x00, 0x01};
    static const ows_u8 after_256[6] = {0xE1, 0x01, 0x00, 0x7F, 0x80, 0x00};
    static const ows_u16 three[3] = {16384, 0, 16384};
    static const ows_reading of_three = {0, 0, 3, 2, 8};
    static const ows_reading of_257 = {0, 0, 257, 2, 6};
    ows_u16 gaps[257];
    size_t i;
    for (i = 0; i < 257; i++) {
        gaps[i] = OWS_GAP;
    }
    check_read(sample_between, 9, 3, &of_three, three);
    check_read(after_256, 6, 300, &of_257, gaps);
}

/* All values of the first three bits, with every length up to 5 and counts of
 * 0, of 1 and above 4096. */
static void check_first_bits(void) {
    static const ows_u8 rests[3][5] = {{0x00, 0x00, 0x07, 0xFF, 0xFF},
                                       {0x00, 0x01, 0x07, 0x00, 0x00},
                                       {0x1F, 0xFF, 0x07, 0x00, 0x00}};
    ows_u32 first, rest;
    size_t length, i;
    for (first = 1; first < 7; first++) {
        check_case("first bits", first);
        for (rest = 0; rest < 3; rest++) {
            ows_u8 bytes[5];
            for (i = 0; i < 5; i++) {
                bytes[i] = rests[rest][i];
            }
            bytes[0] = (ows_u8)(bytes[0] | first << 5);
            for (length = 0; length <= 5; length++) {
                int refusal = length < 3 ? OWS_STRIP_SHORT : OWS_STRIP_FORM;
                check_refused_strip(bytes, length, refusal);
                check_no_read(bytes, length, 0, refusal);
            }
        }
    }
}

void check_refused_strips(void) {
    size_t i;
    for (i = 0; i < LENGTH(early); i++) {
        check_case("early refusal", i);
        check_refused_strip(early[i].bytes, early[i].bytes_len,
                            early[i].refusal);
        check_no_read(early[i].bytes, early[i].bytes_len, 0, early[i].refusal);
        check_no_read(early[i].bytes, early[i].bytes_len, 8192,
                      early[i].refusal);
    }
    for (i = 0; i < LENGTH(late); i++) {
        const ows_u8 *bytes = late[i].bytes;
        size_t count = (size_t)(bytes[0] & 0x1F) << 8 | bytes[1];
        check_case("late refusal", i);
        check_refused_strip(bytes, late[i].bytes_len, late[i].refusal);
        check_no_read(bytes, late[i].bytes_len, count, late[i].refusal);
        check_no_read(bytes, late[i].bytes_len, count - 1, OWS_SLOTS_FEW);
        check_no_read(bytes, late[i].bytes_len, 0, OWS_SLOTS_FEW);
    }
    check_case("", 0);
    check_taken();
    check_first_bits();
}
