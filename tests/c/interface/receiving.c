/* The receiver: fresh, and fed from Hunt to Locked and back. */
#include "check.h"

static const ows_receiver fresh = {OWS_HUNT, 0, 0, 0, 0, 0, 0, 0,
                                   0,        0, 0, 0, 0, 0, 0};

static void check_fresh(void) {
    ows_receiver receiver = ows_fresh();
    CHECK_RECEIVER(receiver, fresh);
}

/* From a fresh record, the sequence of seed 1 frame by frame. */
static void check_lock(ows_u32 alignment) {
    ows_u8 line[OWS_SEQUENCE_BYTES(OWS_LARGEST_ALIGNMENT)];
    const ows_u32 last = alignment + 31;
    ows_receiver receiver = ows_fresh(), want = fresh;
    ows_u32 frame;
    ows_send(ows_start_with(1, alignment).sender, NULL, 0, line, sizeof line);
    for (frame = 0; frame <= last; frame++) {
        receiver = check_feed(&receiver, line + 2 * frame, 2, 2, NULL, 0, 2);
        check_case("frame", frame);
        want = fresh;
        if (frame == 0) {
            want.bits = 0xFF00;
            want.count = 16;
        } else if (frame < alignment) {
            want.mode = OWS_FLASH;
            want.frame = frame % 2 == 0 ? 0xFF00 : 0x00FF;
        } else if (frame == alignment) {
            want.mode = OWS_FIRST;
            want.word = 1;
        } else {
            ows_u32 read = frame - alignment + 1;
            want.mode = frame < last ? OWS_PROVE : OWS_LOCKED;
            want.read = frame < last ? read : 0;
            want.state = rule_steps(1, read);
            want.clock = frame < last ? frame % 2 : 0;
        }
        CHECK_RECEIVER(receiver, want);
    }
}

/* The bits held in each mode, the earliest lowest, and the mode's parts. */
static void check_bits_held(void) {
    static const ows_receiver before[] = {
        {0, 0x1, 3, 0, 0, 0, 0, 0, 0, 11, 12, 13, 14, -15, 16},
        {1, 0x15, 5, 0xFF00, 0, 0, 0, 0, 0, 11, 12, 13, 14, -15, 16},
        {1, 0x15, 5, 0x00FF, 0, 0, 0, 0, 0, 11, 12, 13, 14, -15, 16},
        {2, 0x0A, 4, 0, 0x2BCD, 0, 0, 0, 1, 11, 12, 13, 14, -15, 16},
        {3, 0x7F, 7, 0, 0, 17, 0, 0x1ABCD, 1, 11, 12, 13, 14, -15, 16},
        {4, 0, 0, 0, 0, 0, 0x92, 0x1FFFF, 1, 11, 12, 13, 14, -15, 16},
    };
    static const ows_u8 byte[1] = {0xA7};
    size_t i;
    for (i = 0; i < LENGTH(before); i++) {
        ows_receiver after, want = before[i];
        want.bits |= 0xA7U << want.count;
        want.count += 8;
        check_case("record", i);
        after = check_feed(&before[i], byte, 1, 1, NULL, 0, 1);
        CHECK_RECEIVER(after, want);
        after = check_feed(&before[i], byte, 0, 1, NULL, 0, 0);
        CHECK_RECEIVER(after, before[i]);
    }
}

/* Locked at state 1, clock bit 0 expected, three faults that are forgotten with
 * the next three frames: a sample, then four faults in a row, the last of which
 * ends in Hunt, and bits that Hunt holds. Each frame counts in the sums: -14,
 * -6, 14, -14 and 2. */
static void check_faults(void) {
    static const ows_receiver locked = {4, 0, 0,  0, 0,   0,   0xE0, 1,
                                        0, 7, 20, 3, 100, 100, 100};
    static const ows_receiver lost = {0, 0xC3, 8,  0, 0,  0,  0,  0,
                                      0, 8,    24, 4, 82, 80, 100};
    static const ows_receiver kept = {4, 0, 0,  0, 0,  0,  0xC0, 8,
                                      1, 8, 20, 3, 86, 86, 100};
    static const ows_u8 line[11] = {0x01, 0x00, 0x34, 0x12, 0xFF, 0xBF,
                                    0x00, 0x20, 0x0F, 0x4F, 0xC3};
    static const ows_u16 items[5] = {0, OWS_GAP, OWS_GAP, OWS_GAP, OWS_GAP};
    ows_receiver after;
    after = check_feed(&locked, line, 11, 11, items, 5, 6);
    CHECK_RECEIVER(after, lost);
    after = check_feed(&locked, line, 2, 11, items, 1, 1);
    CHECK_RECEIVER(after, kept);
}

/* A gap toggles the expected clock bit and steps the state, as a sample does;
 * an inverted frame is read as the plain one, and counts as received: -16, -14,
 * -12 and 10. */
static void check_gap_between(void) {
    static const ows_receiver locked = {4, 0, 0, 0, 0,  0,  0, 1,
                                        0, 0, 0, 0, -1, -2, -3};
    static const ows_receiver after = {4, 0, 0, 0, 0,   0,   4, 0x1248,
                                       0, 3, 1, 0, -33, -43, -3};
    static const ows_u8 line[8] = {0x00, 0x00, 0x08, 0x00,
                                   0x48, 0x00, 0xF7, 0xBD};
    static const ows_u16 items[4] = {1, OWS_GAP, 0, 0};
    ows_receiver receiver = check_feed(&locked, line, 8, 8, items, 4, 4);
    CHECK_RECEIVER(receiver, after);
}

/* Totals stay at their largest value. */
static void check_totals(void) {
    static const ows_u64 most = 0xFFFFFFFFFFFFFFFFUL;
    static const ows_u8 line[4] = {0x01, 0x00, 0x08, 0x00};
    static const ows_u16 items[2] = {0, OWS_GAP};
    ows_receiver receiver = {4, 0, 0, 0, 0, 0, 3, 1, 0, 0, 0, 0, 0, 0, 0};
    receiver.samples = most - 1;
    receiver.gaps = most - 1;
    receiver.losses = most;
    receiver = check_feed(&receiver, line, 4, 4, items, 2, 2);
    CHECK_IS(receiver.samples, most);
    CHECK_IS(receiver.gaps, most);
    CHECK_IS(receiver.losses, most);
    receiver.results = 3;
    receiver.clock = 0;
    receiver.state = 1;
    receiver = check_feed(&receiver, line, 4, 4, items, 2, 2);
    CHECK_IS(receiver.samples, most);
    CHECK_IS(receiver.gaps, most);
    receiver.results = 7;
    receiver.clock = 1;
    receiver = check_feed(&receiver, line, 2, 2, items + 1, 1, 1);
    CHECK_IS(receiver.mode, OWS_HUNT);
    CHECK_IS(receiver.losses, most);
}

/* With length 0 the pointers are not used. */
static void check_no_buffers(feeding_call *feed) {
    static const ows_u8 line[2] = {0x01, 0x02};
    ows_u16 slots[2] = {7, 7};
    ows_fed fed = feed(fresh, NULL, 0, NULL, 0);
    CHECK_REFUSAL(fed.refusal, OWS_TAKEN);
    CHECK_RECEIVER(fed.receiver, fresh);
    fed = feed(fresh, line, 2, NULL, 0);
    CHECK_RECEIVER(fed.receiver, fresh);
    CHECK_IS(fed.bytes, 0);
    CHECK_IS(fed.slots, 0);
    fed = feed(fresh, NULL, 0, slots, 2);
    CHECK_RECEIVER(fed.receiver, fresh);
    CHECK_IS(fed.bytes, 0);
    CHECK_IS(fed.slots, 0);
    CHECK_IS(slots[0], 7);
}

void check_receiving(void) {
    check_fresh();
    each_alignment(check_lock);
    check_bits_held();
    check_case("", 0);
    check_faults();
    check_gap_between();
    check_totals();
    check_no_buffers(ows_feed);
    check_no_buffers(ows_feed_frames);
}
