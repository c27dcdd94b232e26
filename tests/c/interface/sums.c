/* The receiver's sums: what one frame adds in Locked, and that they rest in the
 * other modes. */
#include "check.h"

/* ---- One frame in Locked ---- */

/* Sum, lowest and highest before and after a frame. */
typedef struct summing {
    ows_i32 before[3];
    ows_u16 frame;
    ows_i32 after[3];
} summing;

static const summing summings[] = {
    {{0, 0, 0}, 0x0000, {-16, -16, 0}},
    {{0, 0, 0}, 0xFFFF, {16, 0, 16}},
    {{0, 0, 0}, 0xFF00, {0, 0, 0}},
    {{0, 0, 0}, 0x7FFF, {14, 0, 14}},
    {{0, 0, 0}, 0x8000, {-14, -14, 0}},
    {{-14, -14, 0}, 0xBFF7, {-2, -14, 0}},
    {{-5, -20, 20}, 0x4001, {-17, -20, 20}},
    /* The sum outside lowest and highest, and a lowest above the highest. */
    {{2, 7, 9}, 0x00FF, {2, 2, 9}},
    {{2, -9, -7}, 0x00FF, {2, -9, 2}},
    {{2, 9, -9}, 0x00FF, {2, 2, 2}},
    {{20, 9, -9}, 0x00FF, {20, 9, 20}},
    {{0, MOST, LEAST}, 0x0001, {-14, -14, -14}},
    {{0, LEAST, MOST}, 0x0001, {-14, LEAST, MOST}},
    /* The upper limit. */
    {{MOST - 17, 0, 1}, 0xFFFF, {MOST - 1, 0, MOST - 1}},
    {{MOST - 16, 0, 1}, 0xFFFF, {MOST, 0, MOST}},
    {{MOST - 15, 0, 1}, 0xFFFF, {MOST, 0, MOST}},
    {{MOST, MOST, MOST}, 0x81FF, {MOST, MOST, MOST}},
    {{MOST, MOST, MOST}, 0x0000, {MOST - 16, MOST - 16, MOST}},
    /* The lower limit. */
    {{LEAST + 17, 0, 1}, 0x0000, {LEAST + 1, LEAST + 1, 1}},
    {{LEAST + 16, 0, 1}, 0x0000, {LEAST, LEAST, 1}},
    {{LEAST + 15, 0, 1}, 0x0000, {LEAST, LEAST, 1}},
    {{LEAST, LEAST, LEAST}, 0x007F, {LEAST, LEAST, LEAST}},
    {{LEAST, LEAST, LEAST}, 0xFFFF, {LEAST + 16, LEAST, LEAST + 16}},
};

/* Puts the record into Locked, holding the frame's first bits, so that the
 * frame is sound (faults 0), faulty (1), or the fourth faulty one (4). */
static void lock_before(ows_receiver *receiver, ows_u32 frame, int faults,
                        ows_u32 held) {
    ows_u32 clock = (frame >> 14 ^ frame >> 15) & 1;
    receiver->mode = OWS_LOCKED;
    receiver->bits = frame & ((1U << held) - 1);
    receiver->count = held;
    receiver->results = faults == 4 ? 7 : 0;
    receiver->state = 0x1ABCD;
    receiver->clock = faults == 0 ? clock : 1 - clock;
}

/* The rest of the frame, byte by byte, from a record with the sums before. Only
 * the byte with its last bit changes the sums. */
static void check_frame(const ows_receiver *before, const ows_receiver *after,
                        ows_u32 frame, int faults, ows_u32 held) {
    ows_receiver receiver = *before;
    ows_u32 rest = frame >> held;
    ows_u8 byte = (ows_u8)(rest & 0xFF);
    ows_u16 item = 0;
    lock_before(&receiver, frame, faults, held);
    if (held < 8) {
        CHECK_IS(feed_whole(&receiver, &byte, 1, &item), 0);
        CHECK_SUMS(receiver, *before);
        byte = (ows_u8)(rest >> 8);
    }
    CHECK_IS(feed_whole(&receiver, &byte, 1, &item), 1);
    CHECK_IS(item == OWS_GAP, faults > 0);
    CHECK_IS(receiver.mode, faults == 4 ? OWS_HUNT : OWS_LOCKED);
    CHECK_SUMS(receiver, *after);
}

/* Sound, faulty and losing lock, from any bit of the frame on. */
static void check_each_way(const ows_receiver *before,
                           const ows_receiver *after, ows_u32 frame) {
    ows_u32 held;
    for (held = 0; held < 16; held++) {
        check_frame(before, after, frame, 0, held);
        check_frame(before, after, frame, 1, held);
        check_frame(before, after, frame, 4, held);
    }
}

static void check_summings(void) {
    size_t i;
    for (i = 0; i < LENGTH(summings); i++) {
        const summing *row = &summings[i];
        ows_receiver before = ows_fresh(), after = before;
        before.sum = row->before[0];
        before.lowest = row->before[1];
        before.highest = row->before[2];
        after.sum = row->after[0];
        after.lowest = row->after[1];
        after.highest = row->after[2];
        check_case("row", i);
        check_each_way(&before, &after, row->frame);
    }
}

/* Any frame, with each kind of sums, by the rule. */
static void check_any_frame(void) {
    int kind, times;
    for (kind = 0; kind < SUMS; kind++) {
        for (times = 0; times < 60; times++) {
            ows_u32 frame = random_number() & 0xFFFF;
            ows_receiver before = ows_fresh(), after;
            put_sums(&before, kind);
            after = before;
            rule_sums(&after, frame);
            check_case("frame", frame);
            check_each_way(&before, &after, frame);
        }
    }
}

/* ---- At rest ---- */

/* Noise, byte by byte, in every mode but Locked, and SYNC. */
static void check_rest(int kind) {
    static const ows_receiver before[] = {
        {0, 0, 0, 0, 0, 0, 0, 0, 0, 1, 2, 3, 0, 0, 0},
        {1, 0x15, 5, 0xFF00, 0, 0, 0, 0, 0, 1, 2, 3, 0, 0, 0},
        {2, 0x0A, 4, 0, 0x2BCD, 0, 0, 0, 1, 1, 2, 3, 0, 0, 0},
        {3, 0x7F, 7, 0, 0, 31, 0, 0x1ABCD, 1, 1, 2, 3, 0, 0, 0},
    };
    size_t i;
    for (i = 0; i < LENGTH(before); i++) {
        ows_receiver receiver = before[i], kept;
        int bytes;
        put_sums(&receiver, kind);
        kept = receiver;
        for (bytes = 0; bytes < 100; bytes++) {
            ows_u8 noise = (ows_u8)(random_number() & 0xFF);
            ows_u16 item;
            CHECK_IS(feed_whole(&receiver, &noise, 1, &item), 0);
            CHECK_SUMS(receiver, kept);
        }
        receiver = ows_receiver_sync(receiver).receiver;
        CHECK_SUMS(receiver, kept);
    }
}

void check_sums(void) {
    int kind;
    check_summings();
    check_any_frame();
    for (kind = 0; kind < SUMS; kind++) {
        check_case("kind of sums", (ows_u64)kind);
        check_rest(kind);
    }
}
