/* Sender records at the ends of their ranges, and spoiled ones. */
#include "check.h"

/* SYNC of a record with guard bytes round it. */
static void check_sync_of(const ows_sender *before, int refusal,
                          const ows_sender *after) {
    ows_sender *lent = (ows_sender *)lend_copy(before, sizeof *before);
    CHECK_REFUSAL(ows_sync(lent), refusal);
    CHECK_SENDER(*lent, *after);
    TAKE_BACK(lent, sizeof *before, after, sizeof *after);
}

/* SYNC and sending take the record. */
static void check_taken(const ows_sender *sender) {
    ows_sender after = *sender;
    ows_sent sent = ows_send(*sender, NULL, 0, NULL, 0);
    after.state = after.seed;
    after.clock = 0;
    after.position = 0;
    check_sync_of(sender, OWS_TAKEN, &after);
    CHECK_REFUSAL(sent.refusal, OWS_TAKEN);
    CHECK_SENDER(sent.sender, *sender);
}

/* SYNC and sending refuse the record, which comes back, and nothing is written.
 * A sample above 16383 is not told: the record is tried first. */
static void check_refused(const ows_sender *sender) {
    static const ows_u16 samples[2] = {0, 16384};
    ows_u8 *buf = (ows_u8 *)lend(8);
    ows_sent sent = ows_send(*sender, samples, 2, buf, 8);
    check_sync_of(sender, OWS_RECORD, sender);
    CHECK_REFUSAL(sent.refusal, OWS_RECORD);
    CHECK_IS(sent.stop, OWS_STOP_REFUSED);
    CHECK_SENDER(sent.sender, *sender);
    CHECK_IS(sent.taken, 0);
    CHECK_IS(sent.written, 0);
    TAKE_BACK(buf, 8, NULL, 0);
}

static const ows_sender good[] = {
    {1, 1, 0, 0, 0, 32},
    {0x1FFFF, 9, 1, -16, 64, 32},
    {5, 0x1FFFF, 1, 16, 1, 12},
    {0xFE, 0xFF, 0, -7, 63, 32},
};

static const ows_sender spoiled[] = {
    {0, 1, 0, 0, 0, 32},
    {0x20000, 1, 0, 0, 0, 32},
    {0xFF, 1, 0, 0, 0, 32},
    {0x1C0FF, 1, 0, 0, 0, 32},
    {1, 0, 0, 0, 0, 32},
    {1, 0x20000, 0, 0, 0, 32},
    {1, 1, 2, 0, 0, 32},
    {1, 1, 0, 17, 0, 32},
    {1, 1, 0, -17, 0, 32},
    {1, 1, 0, 0, 65, 32},
    {1, 1, 0x10000, 0, 0, 32},
    {1, 1, 0, 0x10000, 0, 32},
    {1, 1, 0, 0, 0x10000, 32},
    {0, 0, 0, 0, 0, 0},
    {0x01020304, 0x05060708, 0x090A0B0C, -0x0D0E0F10, 0x11121314, 0x15161718},
    {0xFFFFFFFFU, 0xFFFFFFFEU, 0xFFFFFFFDU, 2147483647, 0xFFFFFFFBU,
     0xFFFFFFFAU},
    {0x80000001U, 0x80000002U, 0x80000003U, -2147483647 - 1, 0x80000005U,
     0x80000006U},
};

static void check_records(void) {
    size_t i;
    for (i = 0; i < LENGTH(good); i++) {
        check_case("good record", i);
        check_taken(&good[i]);
    }
    for (i = 0; i < LENGTH(spoiled); i++) {
        check_case("spoiled record", i);
        check_refused(&spoiled[i]);
    }
}

/* Every position up to the number of alignment frames plus 32 is taken, and no
 * later one. SYNC keeps the number. */
static void check_positions(ows_u32 alignment) {
    ows_sender sender = good[0];
    sender.alignment = alignment;
    for (; sender.position <= alignment + 32; sender.position++) {
        check_taken(&sender);
    }
    for (; sender.position <= 100; sender.position++) {
        check_refused(&sender);
    }
    sender.position = 0x80000000U;
    check_refused(&sender);
    sender.position = 0xFFFFFFFFU;
    check_refused(&sender);
}

/* A wrong number of alignment frames, at positions that would be admitted with
 * a permitted one, and at the end of the sequence that it would make. */
static void check_wrong_number(ows_u32 alignment) {
    static const ows_u32 positions[] = {0, 12, 44, 64};
    ows_sender sender = good[0];
    size_t i;
    sender.alignment = alignment;
    for (i = 0; i < LENGTH(positions); i++) {
        sender.position = positions[i];
        check_refused(&sender);
    }
    sender.position = alignment + 32;
    check_refused(&sender);
}

void check_sender_records(void) {
    check_records();
    each_alignment(check_positions);
    each_wrong_alignment(check_wrong_number);
}
