/* Where the fields of every struct lie: by the compiler, and by the bytes that
 * the archive writes. */
#include "check.h"

#define PLACE(type, field, offset, size)                                       \
    do {                                                                       \
        static const type *const none = NULL;                                  \
        CHECK_IS(offsetof(type, field), offset);                               \
        CHECK_IS(sizeof(none->field), size);                                   \
    } while (0)

/* A number as its bytes stand in memory, the lowest first. */
static ows_u64 number_at(const void *start, size_t offset, size_t size) {
    const unsigned char *bytes = (const unsigned char *)start + offset;
    ows_u64 number = 0;
    while (size > 0) {
        size--;
        number = number << 8 | bytes[size];
    }
    return number;
}

#define HOLDS(answer, offset, size, value)                                     \
    CHECK_IS(number_at(&(answer), offset, size), value)

static void check_frame_places(void) {
    PLACE(ows_stepped, refusal, 0, 1);
    PLACE(ows_stepped, state, 4, 4);
    PLACE(ows_built, refusal, 0, 1);
    PLACE(ows_built, frame, 2, 2);
    PLACE(ows_built, r, 4, 4);
    PLACE(ows_content, clock, 0, 4);
    PLACE(ows_content, scrambled, 4, 2);
    PLACE(ows_content, disparity, 8, 4);
    PLACE(ows_content, inverted, 12, 4);
    PLACE(ows_sampled, refusal, 0, 1);
    PLACE(ows_sampled, sample, 2, 2);
}

static void check_sender_places(void) {
    PLACE(ows_sender, seed, 0, 4);
    PLACE(ows_sender, state, 4, 4);
    PLACE(ows_sender, clock, 8, 4);
    PLACE(ows_sender, r, 12, 4);
    PLACE(ows_sender, position, 16, 4);
    PLACE(ows_sender, alignment, 20, 4);
    PLACE(ows_started, refusal, 0, 1);
    PLACE(ows_started, sender, 4, 24);
    PLACE(ows_sent, refusal, 0, 1);
    PLACE(ows_sent, stop, 1, 1);
    PLACE(ows_sent, sender, 4, 24);
    PLACE(ows_sent, taken, 32, 8);
    PLACE(ows_sent, written, 40, 8);
}

static void check_receiver_places(void) {
    PLACE(ows_receiver, mode, 0, 4);
    PLACE(ows_receiver, bits, 4, 4);
    PLACE(ows_receiver, count, 8, 4);
    PLACE(ows_receiver, frame, 12, 4);
    PLACE(ows_receiver, word, 16, 4);
    PLACE(ows_receiver, read, 20, 4);
    PLACE(ows_receiver, results, 24, 4);
    PLACE(ows_receiver, state, 28, 4);
    PLACE(ows_receiver, clock, 32, 4);
    PLACE(ows_receiver, samples, 40, 8);
    PLACE(ows_receiver, gaps, 48, 8);
    PLACE(ows_receiver, losses, 56, 8);
    PLACE(ows_receiver, sum, 64, 4);
    PLACE(ows_receiver, lowest, 68, 4);
    PLACE(ows_receiver, highest, 72, 4);
    PLACE(ows_receiver_synced, refusal, 0, 1);
    PLACE(ows_receiver_synced, receiver, 8, 80);
    PLACE(ows_fed, refusal, 0, 1);
    PLACE(ows_fed, receiver, 8, 80);
    PLACE(ows_fed, bytes, 88, 8);
    PLACE(ows_fed, slots, 96, 8);
}

/* The signed fields: a pointer to one of another type does not compile. */
static void check_signed_fields(void) {
    ows_built built = ows_build(1, 1, 0, 0);
    ows_content content = ows_read(0);
    ows_sender sender = ows_start(1).sender;
    ows_receiver receiver = ows_fresh();
    const ows_i32 *fields[6];
    const ows_u32 *inverted = &content.inverted;
    fields[0] = &built.r;
    fields[1] = &content.disparity;
    fields[2] = &sender.r;
    fields[3] = &receiver.sum;
    fields[4] = &receiver.lowest;
    fields[5] = &receiver.highest;
    CHECK(*fields[0] < 0);
    CHECK(*fields[1] < 0);
    CHECK_IS(*fields[2], 0);
    CHECK_IS(*fields[3], 0);
    CHECK_IS(*fields[4], 0);
    CHECK_IS(*fields[5], 0);
    CHECK_IS(*inverted, 0);
}

static void check_strip_places(void) {
    PLACE(ows_written, refusal, 0, 1);
    PLACE(ows_written, bytes, 8, 8);
    PLACE(ows_reading, refusal, 0, 1);
    PLACE(ows_reading, lane, 1, 1);
    PLACE(ows_reading, count, 2, 2);
    PLACE(ows_reading, form, 4, 1);
    PLACE(ows_reading, used, 8, 8);
    PLACE(ows_converted, refusal, 0, 1);
    PLACE(ows_converted, used, 8, 8);
    PLACE(ows_converted, bytes, 16, 8);
    CHECK_IS(sizeof(ows_reading), 16);
    CHECK_IS(sizeof(ows_converted), 24);
}

static void check_frame_bytes(void) {
    ows_stepped stepped = ows_next(0x208);
    ows_built built = ows_build(0, 8, 1, -14);
    ows_content content = ows_read(0xBFF7);
    ows_sampled sampled = ows_read_sample(0x1248, 0x1C0FF);
    HOLDS(stepped, 0, 1, 0);
    HOLDS(stepped, 4, 4, 0x1248);
    HOLDS(built, 0, 1, 0);
    HOLDS(built, 2, 2, 0xBFF7);
    HOLDS(built, 4, 4, 0xFFFFFFFEUL);
    HOLDS(content, 0, 4, 1);
    HOLDS(content, 4, 2, 8);
    HOLDS(content, 8, 4, 12);
    HOLDS(content, 12, 4, 1);
    HOLDS(sampled, 0, 1, 0);
    HOLDS(sampled, 2, 2, 0x12B7);
    stepped = ows_next(0);
    built = ows_build(0, 1, 0, 17);
    sampled = ows_read_sample(0, 0);
    HOLDS(stepped, 0, 1, 3);
    HOLDS(built, 0, 1, 5);
    HOLDS(sampled, 0, 1, 3);
}

/* The last two frames of a sequence with 20 alignment frames, then three
 * samples. */
static void check_sender_bytes(void) {
    static const ows_sender sender = {0x12345, 1, 0, 0, 50, 20};
    static const ows_u16 samples[5] = {0, 0, 0, 0, 0};
    ows_u8 buf[10];
    ows_sent sent = ows_send(sender, samples, 5, buf, 10);
    ows_started started = ows_start(0x1ABCD);
    HOLDS(sent, 0, 1, 0);
    HOLDS(sent, 1, 1, 2);
    HOLDS(sent, 4, 4, 0x12345);
    HOLDS(sent, 8, 4, 0x8008);
    HOLDS(sent, 12, 4, 1);
    HOLDS(sent, 16, 4, 0xFFFFFFF4UL);
    HOLDS(sent, 20, 4, 52);
    HOLDS(sent, 24, 4, 20);
    HOLDS(sent, 32, 8, 3);
    HOLDS(sent, 40, 8, 10);
    HOLDS(started, 0, 1, 0);
    HOLDS(started, 4, 4, 0x1ABCD);
    HOLDS(started, 8, 4, 0x1ABCD);
    HOLDS(started, 24, 4, 32);
    started = ows_start_with(0x1ABCD, 14);
    HOLDS(started, 0, 1, 0);
    HOLDS(started, 4, 4, 0x1ABCD);
    HOLDS(started, 24, 4, 14);
    started = ows_start(0xFF);
    HOLDS(started, 0, 1, 2);
    started = ows_start_with(1, 15);
    HOLDS(started, 0, 1, 19);
}

/* All fields of a record, by their bytes. */
static void check_same_bytes(const ows_receiver *got,
                             const ows_receiver *want) {
    size_t i;
    for (i = 0; i < 36; i += 4) {
        HOLDS(*got, i, 4, number_at(want, i, 4));
    }
    for (i = 40; i < 64; i += 8) {
        HOLDS(*got, i, 8, number_at(want, i, 8));
    }
    for (i = 64; i < 76; i += 4) {
        HOLDS(*got, i, 4, number_at(want, i, 4));
    }
}

/* A spoiled record comes back in every part of each answer. */
static void check_receiver_bytes(void) {
    ows_receiver spoiled;
    ows_receiver_synced synced;
    size_t i;
    for (i = 0; i < sizeof spoiled; i++) {
        ((unsigned char *)&spoiled)[i] = (unsigned char)(i + 1);
    }
    synced = ows_receiver_sync(spoiled);
    HOLDS(synced, 0, 1, 3);
    check_same_bytes(&synced.receiver, &spoiled);
    for (i = 0; i < FEEDS; i++) {
        ows_fed fed = feeding_calls[i](spoiled, NULL, 0, NULL, 0);
        HOLDS(fed, 0, 1, 3);
        check_same_bytes(&fed.receiver, &spoiled);
    }
}

/* A gap, then half a frame, with slots to spare. */
static void check_fed_bytes(feeding_call *feed) {
    static const ows_receiver locked = {4, 0, 0,  0,   0, 0,  2, 8,
                                        0, 7, 20, 300, 5, -6, 7};
    static const ows_u8 line[3] = {0x08, 0x40, 0x5A};
    ows_u16 slots[5];
    ows_fed fed = feed(locked, line, 3, slots, 5);
    HOLDS(fed, 0, 1, 0);
    HOLDS(fed, 8, 4, 4);
    HOLDS(fed, 12, 4, 0x5A);
    HOLDS(fed, 16, 4, 8);
    HOLDS(fed, 32, 4, 5);
    HOLDS(fed, 36, 4, 0x48);
    HOLDS(fed, 40, 4, 1);
    HOLDS(fed, 48, 8, 7);
    HOLDS(fed, 56, 8, 21);
    HOLDS(fed, 64, 8, 300);
    HOLDS(fed, 72, 4, 0xFFFFFFF9UL);
    HOLDS(fed, 76, 4, 0xFFFFFFF9UL);
    HOLDS(fed, 80, 4, 7);
    HOLDS(fed, 88, 8, 3);
    HOLDS(fed, 96, 8, 1);
}

static void check_strip_bytes(void) {
    static const ows_u8 strip[5] = {0, 2, 5, 0x80, 2};
    ows_u8 buf[4];
    ows_u16 slots[2];
    ows_written written = ows_write_strip(7, NULL, 0, buf, 4);
    ows_reading reading = ows_read_strip(strip, 5, slots, 2);
    HOLDS(written, 0, 1, 0);
    HOLDS(written, 8, 8, 3);
    HOLDS(reading, 0, 1, 0);
    HOLDS(reading, 1, 1, 5);
    HOLDS(reading, 2, 2, 2);
    HOLDS(reading, 4, 1, 1);
    HOLDS(reading, 8, 8, 5);
    written = ows_write_strip(7, NULL, 0, buf, 2);
    reading = ows_read_strip(strip, 2, slots, 2);
    HOLDS(written, 0, 1, 8);
    HOLDS(reading, 0, 1, 9);
}

/* The same of form two, and of conversions. */
static void check_short_strip_bytes(void) {
    static const ows_u8 strip[6] = {0xE0, 2, 5, 0x80, 2, 0};
    ows_u8 buf[6];
    ows_written written = ows_write_short_strip(7, NULL, 0, buf, 4);
    ows_reading reading = ows_check_strip(strip, 6);
    ows_converted converted = ows_expand_strip(strip, 6, buf, 6);
    HOLDS(written, 0, 1, 0);
    HOLDS(written, 8, 8, 3);
    HOLDS(reading, 0, 1, 0);
    HOLDS(reading, 1, 1, 5);
    HOLDS(reading, 2, 2, 2);
    HOLDS(reading, 4, 1, 2);
    HOLDS(reading, 8, 8, 6);
    HOLDS(converted, 0, 1, 0);
    HOLDS(converted, 8, 8, 6);
    HOLDS(converted, 16, 8, 5);
    written = ows_write_short_strip(7, NULL, 0, buf, 2);
    reading = ows_check_strip(strip, 5);
    converted = ows_shorten_strip(strip, 6, buf, 5);
    HOLDS(written, 0, 1, 8);
    HOLDS(reading, 0, 1, 12);
    HOLDS(converted, 0, 1, 8);
}

void check_layout(void) {
    check_frame_places();
    check_sender_places();
    check_receiver_places();
    check_signed_fields();
    check_strip_places();
    check_frame_bytes();
    check_sender_bytes();
    check_receiver_bytes();
    check_fed_bytes(ows_feed);
    check_fed_bytes(ows_feed_frames);
    check_strip_bytes();
    check_short_strip_bytes();
}
