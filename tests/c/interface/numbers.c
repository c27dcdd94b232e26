/* The constants of the header against the numbers of the documents. */
#include "check.h"

static void check_refusal_names(void) {
    CHECK_IS(OWS_TAKEN, 0);
    CHECK_IS(OWS_SEED_RANGE, 1);
    CHECK_IS(OWS_SEED_WORD, 2);
    CHECK_IS(OWS_RECORD, 3);
    CHECK_IS(OWS_SAMPLE, 4);
    CHECK_IS(OWS_DISPARITY, 5);
    CHECK_IS(OWS_ITEMS_MANY, 6);
    CHECK_IS(OWS_ITEM, 7);
    CHECK_IS(OWS_BUFFER_SHORT, 8);
    CHECK_IS(OWS_STRIP_SHORT, 9);
    CHECK_IS(OWS_STRIP_COUNT, 10);
    CHECK_IS(OWS_SLOTS_FEW, 11);
    CHECK_IS(OWS_STRIP_CUT, 12);
    CHECK_IS(OWS_STRIP_PADDING, 13);
    CHECK_IS(OWS_ALIGNMENT, 19);
    CHECK_IS(OWS_STRIP_FORM, 20);
    CHECK_IS(OWS_STRIP_RUN, 21);
}

static void check_other_names(void) {
    CHECK_IS(OWS_LARGEST_SAMPLE, 16383);
    CHECK_IS(OWS_GAP, 16384);
    CHECK_IS(OWS_LARGEST_STATE, 0x1FFFF);
    CHECK_IS(OWS_SMALLEST_ALIGNMENT, 12);
    CHECK_IS(OWS_LARGEST_ALIGNMENT, 32);
    CHECK_IS(OWS_LARGEST_COUNT, 4096);
    CHECK_IS(OWS_STOP_REFUSED, 0);
    CHECK_IS(OWS_ALL_SENT, 1);
    CHECK_IS(OWS_OUT_OF_SPACE, 2);
    CHECK_IS(OWS_HUNT, 0);
    CHECK_IS(OWS_FLASH, 1);
    CHECK_IS(OWS_FIRST, 2);
    CHECK_IS(OWS_PROVE, 3);
    CHECK_IS(OWS_LOCKED, 4);
}

/* A sequence has 32 frames more than alignment frames, each of two bytes. */
static void check_sequence_bytes(void) {
    const ows_u32 twenty = 20;
    CHECK_IS(OWS_SEQUENCE_BYTES(12), 88);
    CHECK_IS(OWS_SEQUENCE_BYTES(twenty), 104);
    CHECK_IS(OWS_SEQUENCE_BYTES(twenty + 2), 108);
    CHECK_IS(OWS_SEQUENCE_BYTES(twenty > 12 ? 14 : 12), 92);
    CHECK_IS(300 - OWS_SEQUENCE_BYTES(OWS_LARGEST_ALIGNMENT), 300 - 128);
}

/* A strip of samples has 24 bits and 15 for each, in whole bytes. */
static void check_strip_bytes(void) {
    const int nine = 9;
    CHECK_IS(OWS_STRIP_BYTES(0), 3);
    CHECK_IS(OWS_STRIP_BYTES(1), 5);
    CHECK_IS(OWS_STRIP_BYTES(2), 7);
    CHECK_IS(OWS_STRIP_BYTES(8), 18);
    CHECK_IS(OWS_STRIP_BYTES(nine - 1), 18);
    CHECK_IS(OWS_STRIP_BYTES(9), 20);
    CHECK_IS(OWS_STRIP_BYTES(OWS_LARGEST_COUNT), 7683);
}

/* The types hold their whole range, and only that of R and of sums is signed.
 */
static void check_types(void) {
    CHECK_IS((ows_u8)-1, 0xFFUL);
    CHECK_IS((ows_u16)-1, 0xFFFFUL);
    CHECK_IS((ows_u32)-1, 0xFFFFFFFFUL);
    CHECK_IS((ows_u64)-1, 0xFFFFFFFFFFFFFFFFUL);
    CHECK((ows_i32)-1 < 0);
}

void check_numbers(void) {
    check_refusal_names();
    check_other_names();
    check_sequence_bytes();
    check_strip_bytes();
    check_types();
}
