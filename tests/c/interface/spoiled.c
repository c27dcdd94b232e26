/* Receiver records at the ends of their ranges, and spoiled ones. */
#include "check.h"

static const ows_receiver good[] = {
    {0, 0, 0, 0, 0, 0, 0, 0, 0, 0, 0, 0, 0, 0, 0},
    {0, 0xFFFFFFFFU, 32, 0, 0, 0, 0, 0, 0, 1, 2, 3, 0, 0, 0},
    {0, 0x7FFFFFFF, 31, 0, 0, 0, 0, 0, 0, 1, 2, 3, 0, 0, 0},
    {1, 0, 0, 0xFF00, 0, 0, 0, 0, 0, 1, 2, 3, 0, 0, 0},
    {1, 0x7FFF, 15, 0x00FF, 0, 0, 0, 0, 0, 1, 2, 3, 0, 0, 0},
    {2, 0x7FFF, 15, 0, 16383, 0, 0, 0, 1, 1, 2, 3, 0, 0, 0},
    {2, 0, 0, 0, 0, 0, 0, 0, 0, 1, 2, 3, 0, 0, 0},
    {3, 0x7FFF, 15, 0, 0, 2, 0, 1, 0, 1, 2, 3, 0, 0, 0},
    {3, 0, 0, 0, 0, 31, 0, 0x1FFFF, 1, 1, 2, 3, 0, 0, 0},
    {4, 0x7FFF, 15, 0, 0, 0, 0, 1, 0, 1, 2, 3, 0, 0, 0},
    {4, 0, 0, 0, 0, 0, 7, 1, 1, 1, 2, 3, 0, 0, 0},
    {4, 0, 0, 0, 0, 0, 0xE0, 1, 0, 1, 2, 3, 0, 0, 0},
    {4, 0, 0, 0, 0, 0, 0x92, 1, 1, 1, 2, 3, 0, 0, 0},
    {4, 0, 0, 0, 0, 0, 0x83, 0x1FFFF, 1, 0x0102030405060708UL,
     0xF1F2F3F4F5F6F7F8UL, 0xFFFFFFFFFFFFFFFFUL, 0, 0, 0},
};

static const ows_receiver spoiled[] = {
    {5, 0, 0, 0, 0, 0, 0, 0, 0, 0, 0, 0, 0, 0, 0},
    {0xFFFFFFFFU, 0, 0, 0, 0, 0, 0, 0, 0, 0, 0, 0, 0, 0, 0},
    {0x100, 0, 0, 0, 0, 0, 0, 0, 0, 0, 0, 0, 0, 0, 0},
    {0, 0, 33, 0, 0, 0, 0, 0, 0, 0, 0, 0, 0, 0, 0},
    {0, 0, 64, 0, 0, 0, 0, 0, 0, 0, 0, 0, 0, 0, 0},
    {0, 0, 0xFFFFFFFFU, 0, 0, 0, 0, 0, 0, 0, 0, 0, 0, 0, 0},
    {0, 1, 0, 0, 0, 0, 0, 0, 0, 0, 0, 0, 0, 0, 0},
    {0, 0x80000000U, 31, 0, 0, 0, 0, 0, 0, 0, 0, 0, 0, 0, 0},
    {0, 0, 0, 0xFF00, 0, 0, 0, 0, 0, 0, 0, 0, 0, 0, 0},
    {0, 0, 0, 0, 1, 0, 0, 0, 0, 0, 0, 0, 0, 0, 0},
    {0, 0, 0, 0, 0, 2, 0, 0, 0, 0, 0, 0, 0, 0, 0},
    {0, 0, 0, 0, 0, 0, 1, 0, 0, 0, 0, 0, 0, 0, 0},
    {0, 0, 0, 0, 0, 0, 0, 1, 0, 0, 0, 0, 0, 0, 0},
    {0, 0, 0, 0, 0, 0, 0, 0, 1, 0, 0, 0, 0, 0, 0},
    {1, 0, 0, 0, 0, 0, 0, 0, 0, 0, 0, 0, 0, 0, 0},
    {1, 0, 0, 0xFF01, 0, 0, 0, 0, 0, 0, 0, 0, 0, 0, 0},
    {1, 0, 0, 0x1FF00, 0, 0, 0, 0, 0, 0, 0, 0, 0, 0, 0},
    {1, 0, 16, 0xFF00, 0, 0, 0, 0, 0, 0, 0, 0, 0, 0, 0},
    {1, 4, 2, 0xFF00, 0, 0, 0, 0, 0, 0, 0, 0, 0, 0, 0},
    {1, 0, 0, 0xFF00, 1, 0, 0, 0, 0, 0, 0, 0, 0, 0, 0},
    {1, 0, 0, 0xFF00, 0, 0, 1, 0, 0, 0, 0, 0, 0, 0, 0},
    {1, 0, 0, 0xFF00, 0, 0, 0, 0, 1, 0, 0, 0, 0, 0, 0},
    {2, 0, 0, 0, 16384, 0, 0, 0, 0, 0, 0, 0, 0, 0, 0},
    {2, 0, 0, 0, 0, 0, 0, 0, 2, 0, 0, 0, 0, 0, 0},
    {2, 0, 0, 0, 0, 0, 1, 0, 0, 0, 0, 0, 0, 0, 0},
    {2, 0, 0, 0, 0, 0, 0, 1, 0, 0, 0, 0, 0, 0, 0},
    {2, 0, 32, 0, 0, 0, 0, 0, 0, 0, 0, 0, 0, 0, 0},
    {3, 0, 0, 0, 0, 1, 0, 1, 0, 0, 0, 0, 0, 0, 0},
    {3, 0, 0, 0, 0, 32, 0, 1, 0, 0, 0, 0, 0, 0, 0},
    {3, 0, 0, 0, 0, 2, 0, 0, 0, 0, 0, 0, 0, 0, 0},
    {3, 0, 0, 0, 0, 2, 0, 0x20000, 0, 0, 0, 0, 0, 0, 0},
    {3, 0, 0, 0, 0, 2, 0, 1, 2, 0, 0, 0, 0, 0, 0},
    {3, 0, 0, 0, 0, 2, 1, 1, 0, 0, 0, 0, 0, 0, 0},
    {4, 0, 0, 0, 0, 0, 15, 1, 0, 0, 0, 0, 0, 0, 0},
    {4, 0, 0, 0, 0, 0, 255, 1, 0, 0, 0, 0, 0, 0, 0},
    {4, 0, 0, 0, 0, 0, 256, 1, 0, 0, 0, 0, 0, 0, 0},
    {4, 0, 0, 0, 0, 0, 0x80000000U, 1, 0, 0, 0, 0, 0, 0, 0},
    {4, 0, 0, 0, 0, 0, 0xFFFFFFFFU, 1, 0, 0, 0, 0, 0, 0, 0},
    {4, 0, 0, 0, 0, 0, 0, 0, 0, 0, 0, 0, 0, 0, 0},
    {4, 0, 0, 0, 0, 0, 0, 0x20000, 0, 0, 0, 0, 0, 0, 0},
    {4, 0, 0, 0, 0, 0, 0, 1, 2, 0, 0, 0, 0, 0, 0},
    {4, 0x8000, 15, 0, 0, 0, 0, 1, 0, 0, 0, 0, 0, 0, 0},
    {4, 0, 0, 0, 0, 2, 0, 1, 0, 0, 0, 0, 0, 0, 0},
    {0x01020304, 0x05060708, 0x090A0B0C, 0x0D0E0F10, 0x11121314, 0x15161718,
     0x191A1B1C, 0x1D1E1F20, 0x21222324, 0x25262728292A2B2CUL,
     0x2D2E2F3031323334UL, 0x35363738393A3B3CUL, 0, 0, 0},
    {0xFFFFFFFFU, 0xFFFFFFFEU, 0xFFFFFFFDU, 0xFFFFFFFCU, 0xFFFFFFFBU,
     0xFFFFFFFAU, 0xFFFFFFF9U, 0xFFFFFFF8U, 0xFFFFFFF7U, 0xFFFFFFFFFFFFFFF6UL,
     0xFFFFFFFFFFFFFFF5UL, 0xFFFFFFFFFFFFFFF4UL, 0, 0, 0},
};

static void check_good(const ows_receiver *receiver) {
    ows_receiver_synced synced = ows_receiver_sync(*receiver);
    ows_fed fed = feed_by_both(*receiver, NULL, 0, NULL, 0);
    ows_receiver hunt = good[0];
    hunt.samples = receiver->samples;
    hunt.gaps = receiver->gaps;
    hunt.losses = receiver->losses;
    hunt.sum = receiver->sum;
    hunt.lowest = receiver->lowest;
    hunt.highest = receiver->highest;
    CHECK_REFUSAL(synced.refusal, OWS_TAKEN);
    CHECK_RECEIVER(synced.receiver, hunt);
    CHECK_REFUSAL(fed.refusal, OWS_TAKEN);
    CHECK_RECEIVER(fed.receiver, *receiver);
}

static void check_spoiled_fed(const ows_receiver *receiver,
                              const ows_u8 *line) {
    ows_u16 *slots = (ows_u16 *)lend(8);
    ows_fed fed = feed_by_both(*receiver, line, 4, slots, 4);
    CHECK_REFUSAL(fed.refusal, OWS_RECORD);
    CHECK_RECEIVER(fed.receiver, *receiver);
    CHECK_IS(fed.bytes, 0);
    CHECK_IS(fed.slots, 0);
    TAKE_BACK(slots, 8, NULL, 0);
}

/* The line, and the same from a crossed lane. */
static void check_spoiled(const ows_receiver *receiver) {
    static const ows_u8 line[4] = {0x00, 0xFF, 0xFF, 0x00};
    static const ows_u8 crossed[4] = {0xFF, 0x00, 0x00, 0xFF};
    ows_receiver_synced synced = ows_receiver_sync(*receiver);
    CHECK_REFUSAL(synced.refusal, OWS_RECORD);
    CHECK_RECEIVER(synced.receiver, *receiver);
    check_spoiled_fed(receiver, line);
    check_spoiled_fed(receiver, crossed);
}

/* Runs the check on each record of a list, with each kind of sums. */
static void each_record(const ows_receiver *records, size_t length,
                        const char *name,
                        void (*check)(const ows_receiver *receiver)) {
    size_t i;
    int kind;
    for (i = 0; i < length; i++) {
        check_case(name, i);
        for (kind = 0; kind < SUMS; kind++) {
            ows_receiver receiver = records[i];
            put_sums(&receiver, kind);
            check(&receiver);
        }
    }
}

/* The results of Locked: a number of eight bits of which at most three are 1
 * is taken, and no other. */
static void check_results(void) {
    ows_receiver receiver = {4, 0, 0, 0, 0, 0, 0, 1, 0, 1, 2, 3, 4, -5, 6};
    ows_u32 results;
    for (results = 0; results < 1024; results++) {
        ows_fed fed;
        receiver.results = results;
        fed = feed_by_both(receiver, NULL, 0, NULL, 0);
        check_case("results", results);
        CHECK_REFUSAL(fed.refusal, results < 256 && rule_ones(results, 8) <= 3
                                       ? OWS_TAKEN
                                       : OWS_RECORD);
        CHECK_RECEIVER(fed.receiver, receiver);
    }
}

void check_spoiled_records(void) {
    each_record(good, LENGTH(good), "good record", check_good);
    each_record(spoiled, LENGTH(spoiled), "spoiled record", check_spoiled);
    check_results();
}
