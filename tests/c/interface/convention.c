/* How numbers, structs and buffers cross from C to the archive and back: each
 * way that the calling convention of 64-bit x86 Linux has for the header's
 * types. */
#include "check.h"

#include <string.h>

/* Called through these, a call can't be seen through by the compiler. */
static ows_stepped (*volatile next)(ows_u32) = ows_next;
static ows_u8 (*volatile check_seed)(ows_u32) = ows_check_seed;
static ows_u32 (*volatile lane_seed)(ows_u8) = ows_lane_seed;
static ows_i32 (*volatile disparity)(ows_u16) = ows_disparity;
static ows_built (*volatile build)(ows_u16, ows_u32, ows_u32,
                                   ows_i32) = ows_build;
static ows_content (*volatile read_frame)(ows_u16) = ows_read;
static ows_sampled (*volatile read_sample)(ows_u16, ows_u32) = ows_read_sample;
static ows_started (*volatile start_with)(ows_u32, ows_u32) = ows_start_with;
static feeding_call *volatile feed;
static ows_written (*volatile write_strip)(ows_u8, const ows_u16 *, size_t,
                                           ows_u8 *, size_t) = ows_write_strip;
static ows_written (*volatile write_short)(ows_u8, const ows_u16 *, size_t,
                                           ows_u8 *,
                                           size_t) = ows_write_short_strip;
static ows_reading (*volatile check_strip)(const ows_u8 *,
                                           size_t) = ows_check_strip;
static ows_converted (*volatile convert[2])(const ows_u8 *, size_t, ows_u8 *,
                                            size_t) = {ows_expand_strip,
                                                       ows_shorten_strip};

/* Numbers cut down from 64 bits whose upper part is not 0. */
static ows_u8 cut_u8(ows_u64 low) {
    volatile ows_u64 wide = 0xDEADBEEFCAFE5A00UL | low;
    return (ows_u8)wide;
}

static ows_u16 cut_u16(ows_u64 low) {
    volatile ows_u64 wide = 0xDEADBEEFCAFE0000UL | low;
    return (ows_u16)wide;
}

static ows_u32 cut_u32(ows_u64 low) {
    volatile ows_u64 wide = 0xDEADBEEF00000000UL | low;
    return (ows_u32)wide;
}

static ows_i32 cut_i32(long number) {
    volatile long wide = number;
    return (ows_i32)wide;
}

/* Parameters of 8, 16 and 32 bits; results of 1, 4 and 8 bytes. */
static void check_narrow(void) {
    ows_u32 seed = rule_steps(1, 512UL * 255);
    ows_built built = build(cut_u16(0), cut_u32(8), cut_u32(1), cut_i32(-14));
    ows_sampled sampled = read_sample(cut_u16(0xBFF7), cut_u32(0x1FFFF));
    CHECK_IS(next(cut_u32(0x1FFFF)).state, 7);
    CHECK_IS(next(cut_u32(0)).refusal, OWS_RECORD);
    CHECK_IS(check_seed(cut_u32(0xFF)), OWS_SEED_WORD);
    CHECK_IS(check_seed(cut_u32(0xFFFFFFFFUL)), OWS_SEED_RANGE);
    CHECK_IS(lane_seed(cut_u8(0)), 1);
    CHECK_IS(lane_seed(cut_u8(255)), seed);
    CHECK_IS(disparity(cut_u16(0)), -16);
    CHECK_IS(disparity(cut_u16(0xFFFF)), 16);
    CHECK_IS(built.refusal, OWS_TAKEN);
    CHECK_IS(built.frame, 0xBFF7);
    CHECK_IS(built.r, -2);
    CHECK_IS(sampled.refusal, OWS_TAKEN);
    CHECK_IS(sampled.sample, 0x3FF7);
}

/* R at the ends of its range and of its type. */
static void check_signed(void) {
    static const long taken[] = {-16, -1, 0, 1, 16};
    static const long refused[] = {-17,          17,          -65536,
                                   65536,        2147483647L, -2147483647L - 1,
                                   -2147483647L, 0x7FFFFFF0L};
    size_t i;
    for (i = 0; i < LENGTH(taken); i++) {
        /* A frame of disparity 0. */
        ows_built built = build(0xFE, 1, 0, cut_i32(taken[i]));
        check_case("R", (ows_u64)taken[i]);
        CHECK_IS(built.refusal, OWS_TAKEN);
        CHECK_IS(built.frame, 0xFF);
        CHECK_IS(built.r, taken[i]);
    }
    for (i = 0; i < LENGTH(refused); i++) {
        ows_built built = build(0xFE, 1, 0, cut_i32(refused[i]));
        check_case("R", (ows_u64)refused[i]);
        CHECK_IS(built.refusal, OWS_DISPARITY);
        CHECK_IS(built.frame, 0);
        CHECK_IS(built.r, 0);
    }
}

/* A frame's content, of 16 bytes in two registers: each of them holds two
 * numbers, one of which is signed. */
static void check_content(void) {
    ows_content content = read_frame(cut_u16(0xBFF7));
    CHECK_IS(content.clock, 1);
    CHECK_IS(content.scrambled, 8);
    CHECK_IS(content.disparity, 12);
    CHECK_IS(content.inverted, 1);
    content = read_frame(cut_u16(0x2AA1));
    CHECK_IS(content.clock, 0);
    CHECK_IS(content.scrambled, 0x2AA1);
    CHECK_IS(content.disparity, -4);
    CHECK_IS(content.inverted, 0);
}

/* Other results of 16 bytes, in two registers. */
static void check_two_registers(void) {
    static const ows_u16 items[2] = {0x2AAA, OWS_GAP};
    ows_u8 buf[5];
    ows_u16 slots[2];
    ows_reading reading;
    ows_written written = write_strip(cut_u8(0xC3), items, 2, buf, 5);
    CHECK_IS(written.refusal, OWS_TAKEN);
    CHECK_IS(written.bytes, 5);
    CHECK_IS(buf[2], 0xC3);
    reading = ows_read_strip(buf, 5, slots, 2);
    CHECK_IS(reading.refusal, OWS_TAKEN);
    CHECK_IS(reading.lane, 0xC3);
    CHECK_IS(reading.count, 2);
    CHECK_IS(reading.form, 1);
    CHECK_IS(reading.used, 5);
    CHECK_IS(slots[0], 0x2AAA);
    written = write_strip(cut_u8(0), items, 2, buf, 4);
    CHECK_IS(written.refusal, OWS_BUFFER_SHORT);
    CHECK_IS(written.bytes, 0);
}

/* The same of form two: the first register of a reading holds four numbers. */
static void check_two_registers_again(void) {
    static const ows_u16 items[2] = {0x2AAA, OWS_GAP};
    ows_u8 buf[6];
    ows_reading reading;
    ows_written written = write_short(cut_u8(0xC3), items, 2, buf, 6);
    CHECK_IS(written.refusal, OWS_TAKEN);
    CHECK_IS(written.bytes, 6);
    CHECK_IS(buf[2], 0xC3);
    reading = check_strip(buf, 6);
    CHECK_IS(reading.refusal, OWS_TAKEN);
    CHECK_IS(reading.lane, 0xC3);
    CHECK_IS(reading.count, 2);
    CHECK_IS(reading.form, 2);
    CHECK_IS(reading.used, 6);
    written = write_short(cut_u8(0), items, 2, buf, 5);
    CHECK_IS(written.refusal, OWS_BUFFER_SHORT);
    CHECK_IS(written.bytes, 0);
}

/* A result in memory with numbers round it. */
#define BESIDE 0x5A5AA5A5C3C33C3CUL
#define BESIDE_IS_KEPT(box)                                                    \
    do {                                                                       \
        CHECK_IS((box).before, BESIDE);                                        \
        CHECK_IS((box).after, BESIDE);                                         \
    } while (0)

static struct sent_box {
    ows_u64 before;
    ows_sent answer;
    ows_u64 after;
} sent_box = {BESIDE, {1, 1, {1, 1, 1, 1, 1, 1}, 1, 1}, BESIDE};

static struct fed_box {
    ows_u64 before;
    ows_fed answer;
    ows_u64 after;
} fed_box = {
    BESIDE, {1, {1, 1, 1, 1, 1, 1, 1, 1, 1, 1, 1, 1, 1, 1, 1}, 1, 1}, BESIDE};

/* Structs of 24 and 80 bytes by value in memory, four registers for buffers
 * and one for the result. What is passed by value stays as it was. */
static void check_in_memory(void) {
    static const ows_sender kept = {0x1ABCD, 1, 0, 0, 64, 32};
    static const ows_receiver locked = {4, 0, 0, 0, 0, 0,  1, 1,
                                        0, 5, 6, 7, 8, -9, 10};
    static const ows_receiver after = {4, 0, 0, 0, 0, 0,  2, 8,
                                       1, 6, 6, 7, 4, -9, 10};
    static const ows_u16 samples[1] = {0x1234};
    ows_sender sender = kept;
    ows_receiver receiver = locked;
    ows_u8 buf[2];
    ows_u16 slots[2] = {0, 0x7777};
    sent_box.answer = ows_send(sender, samples, 1, buf, 2);
    BESIDE_IS_KEPT(sent_box);
    CHECK_SENDER(sender, kept);
    CHECK_IS(sent_box.answer.written, 2);
    fed_box.answer = feed(receiver, buf, 2, slots, 2);
    BESIDE_IS_KEPT(fed_box);
    CHECK_RECEIVER(receiver, locked);
    CHECK_RECEIVER(fed_box.answer.receiver, after);
    CHECK_IS(slots[0], 0x1234);
    CHECK_IS(slots[1], 0x7777);
}

/* Two parameters of 32 bits, and a result of 28 bytes in memory with others
 * right before and after it. */
static void check_among_others(void) {
    static const ows_started one = {1, {1, 1, 1, 1, 1, 1}};
    static const ows_sender zeros = {0, 0, 0, 0, 0, 0};
    static const ows_sender fresh = {0x1FFFF, 0x1FFFF, 0, 0, 0, 12};
    static ows_started answers[3];
    answers[0] = answers[2] = one;
    answers[1] = start_with(cut_u32(0x1FFFF), cut_u32(12));
    CHECK_IS(answers[1].refusal, OWS_TAKEN);
    CHECK_SENDER(answers[1].sender, fresh);
    answers[1] = start_with(cut_u32(1), cut_u32(0));
    CHECK_IS(answers[1].refusal, OWS_ALIGNMENT);
    CHECK_SENDER(answers[1].sender, zeros);
    CHECK_IS(answers[0].refusal, 1);
    CHECK_SENDER(answers[0].sender, one.sender);
    CHECK_IS(answers[2].refusal, 1);
    CHECK_SENDER(answers[2].sender, one.sender);
}

/* Buffers alone, and a result of 24 bytes in memory with numbers round it. */
static void check_converted(void) {
    static const ows_u8 strips[2][6] = {{0x00, 2, 5, 0x80, 2},
                                        {0xE0, 2, 5, 0x80, 2, 0}};
    static struct converted_box {
        ows_u64 before;
        ows_converted answer;
        ows_u64 after;
    } box = {BESIDE, {1, 1, 1}, BESIDE};
    size_t from, to;
    for (from = 0; from < 2; from++) {
        for (to = 0; to < 2; to++) {
            ows_u8 buf[6];
            box.answer = convert[to](strips[from], 6, buf, 6);
            CHECK_IS(box.answer.refusal, OWS_TAKEN);
            CHECK_IS(box.answer.used, 5 + from);
            CHECK_IS(box.answer.bytes, 5 + to);
            CHECK_IS(memcmp(buf, strips[to], 5 + to), 0);
            box.answer = convert[to](strips[from], 6, buf, 4 + to);
            CHECK_IS(box.answer.refusal, OWS_BUFFER_SHORT);
            CHECK_IS(box.answer.used, 0);
            CHECK_IS(box.answer.bytes, 0);
            BESIDE_IS_KEPT(box);
        }
    }
}

/* The answer may take the place of the record that the call was given. */
static void check_same_place(void) {
    static const ows_receiver locked = {4, 0, 0, 0, 0, 0,  1, 1,
                                        1, 5, 6, 7, 8, -9, 10};
    static const ows_receiver hunt = {0, 0, 0, 0, 0, 0,  0, 0,
                                      0, 5, 6, 7, 8, -9, 10};
    ows_receiver_synced synced;
    ows_started started = ows_start(0x1ABCD);
    ows_u8 buf[OWS_SEQUENCE_BYTES(32)];
    synced.receiver = locked;
    synced = ows_receiver_sync(synced.receiver);
    CHECK_RECEIVER(synced.receiver, hunt);
    fed_box.answer.receiver = locked;
    fed_box.answer = feed(fed_box.answer.receiver, NULL, 0, NULL, 0);
    CHECK_RECEIVER(fed_box.answer.receiver, locked);
    sent_box.answer.sender = started.sender;
    sent_box.answer =
        ows_send(sent_box.answer.sender, NULL, 0, buf, sizeof buf);
    CHECK_IS(sent_box.answer.stop, OWS_ALL_SENT);
    CHECK_IS(sent_box.answer.sender.state, rule_steps(0x1ABCD, 32));
}

void check_convention(void) {
    size_t i;
    check_narrow();
    check_signed();
    check_case("", 0);
    check_content();
    check_two_registers();
    check_two_registers_again();
    check_converted();
    check_among_others();
    for (i = 0; i < FEEDS; i++) {
        feed = feeding_calls[i];
        check_in_memory();
        check_same_place();
    }
}
