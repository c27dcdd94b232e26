/* The number of alignment frames: starting with it, the sequence as sent, and
 * the lock of a receiver that is not told it. */
#include "check.h"

#include <string.h>

static const ows_u32 seeds[] = {1, 0xFE, 0x4000, 0x1FFFF};
static const ows_u32 no_seeds[] = {0, 0x20000, 0x200FF, 0xFFFFFFFFU};
static const ows_u32 seeds_of_word_ff[] = {0xFF, 0x40FF, 0x1C0FF};

/* ---- Starting ---- */

static void check_refused(ows_u32 seed, ows_u32 alignment, int refusal) {
    static const ows_sender zeros = {0, 0, 0, 0, 0, 0};
    ows_started started = ows_start_with(seed, alignment);
    CHECK_REFUSAL(started.refusal, refusal);
    CHECK_SENDER(started.sender, zeros);
}

/* A seed that is not permitted is refused whatever the number. */
static void check_no_seeds(ows_u32 alignment) {
    size_t i;
    for (i = 0; i < LENGTH(no_seeds); i++) {
        check_refused(no_seeds[i], alignment, OWS_SEED_RANGE);
    }
    for (i = 0; i < LENGTH(seeds_of_word_ff); i++) {
        check_refused(seeds_of_word_ff[i], alignment, OWS_SEED_WORD);
    }
}

static void check_start_with(ows_u32 alignment) {
    size_t i;
    for (i = 0; i < LENGTH(seeds); i++) {
        ows_started started = ows_start_with(seeds[i], alignment);
        ows_sender fresh = {0, 0, 0, 0, 0, 0};
        fresh.seed = fresh.state = seeds[i];
        fresh.alignment = alignment;
        CHECK_REFUSAL(started.refusal, OWS_TAKEN);
        CHECK_SENDER(started.sender, fresh);
    }
    check_no_seeds(alignment);
}

/* Number 19 comes after those of the seed. */
static void check_wrong_number(ows_u32 alignment) {
    size_t i;
    for (i = 0; i < LENGTH(seeds); i++) {
        check_refused(seeds[i], alignment, OWS_ALIGNMENT);
    }
    check_no_seeds(alignment);
}

/* Starting without a number is starting with 32. */
static void check_same_start(const ows_u32 *list, size_t length) {
    size_t i;
    for (i = 0; i < length; i++) {
        ows_started with = ows_start_with(list[i], 32);
        ows_started started = ows_start(list[i]);
        check_case("seed", list[i]);
        CHECK_IS(started.refusal, with.refusal);
        CHECK_SENDER(started.sender, with.sender);
    }
}

/* ---- The sequence, frame by frame ---- */

/* The frame that the sender sends next, by the position; the record becomes the
 * one after it. */
static ows_u16 rule_frame(ows_sender *sender, ows_u16 sample) {
    ows_u32 position = sender->position;
    ows_built built;
    if (position < sender->alignment) {
        sender->position++;
        return position % 2 == 0 ? 0xFF00 : 0x00FF;
    }
    if (position < sender->alignment + 32) {
        sender->position++;
        sample = 0;
    }
    built = ows_build(sample, sender->state, sender->clock, sender->r);
    sender->state = rule_next(sender->state);
    sender->clock = 1 - sender->clock;
    sender->r = built.r;
    return built.frame;
}

/* Sends one frame and gives the next record. */
static ows_sender check_frame(const ows_sender *sender, ows_u16 sample) {
    ows_sender want = *sender;
    int in_sequence = sender->position < sender->alignment + 32;
    ows_u16 frame = rule_frame(&want, sample);
    ows_u8 buf[2];
    ows_sent sent = ows_send(*sender, &sample, 1, buf, 2);
    CHECK_REFUSAL(sent.refusal, OWS_TAKEN);
    CHECK_IS(sent.stop, in_sequence ? OWS_OUT_OF_SPACE : OWS_ALL_SENT);
    CHECK_IS(sent.taken, in_sequence ? 0 : 1);
    CHECK_IS(sent.written, 2);
    CHECK_IS(buf[0] | buf[1] << 8, frame);
    CHECK_SENDER(sent.sender, want);
    return sent.sender;
}

/* The alignment frames, 32 frames of sample 0, then samples, at which the
 * position stays; the same again after SYNC. */
static void check_sequence(ows_u32 alignment) {
    ows_sender sender = ows_start_with(0x1ABCD, alignment).sender;
    int times;
    for (times = 0; times < 2; times++) {
        ows_u32 frame;
        for (frame = 0; frame < alignment + 32 + 9; frame++) {
            CHECK_IS(sender.position,
                     frame < alignment + 32 ? frame : alignment + 32);
            sender = check_frame(&sender, (ows_u16)(random_number() & 0x3FFF));
        }
        CHECK_IS(sender.state, rule_steps(0x1ABCD, 32 + 9));
        ows_sync(&sender);
    }
}

/* All of it in one call: with just the room, a byte less, and more. */
static void check_room(ows_u32 alignment) {
    ows_u8 bytes[OWS_SEQUENCE_BYTES(OWS_LARGEST_ALIGNMENT)];
    size_t length = OWS_SEQUENCE_BYTES(alignment);
    ows_sender sender = ows_start_with(1, alignment).sender;
    ows_sent sent = ows_send(sender, NULL, 0, bytes, length);
    CHECK_IS(sent.stop, OWS_ALL_SENT);
    CHECK_IS(sent.written, length);
    CHECK_IS(sent.sender.position, alignment + 32);
    sent = ows_send(sender, NULL, 0, bytes, length - 1);
    CHECK_IS(sent.stop, OWS_OUT_OF_SPACE);
    CHECK_IS(sent.written, length - 2);
    CHECK_IS(sent.sender.position, alignment + 31);
    sent = ows_send(sender, NULL, 0, bytes, sizeof bytes);
    CHECK_IS(sent.stop, OWS_ALL_SENT);
    CHECK_IS(sent.written, length);
}

/* ---- The lock ---- */

#define SAMPLES 20
#define MOST_NOISE 64
#define MOST_LINE (OWS_SEQUENCE_BYTES(OWS_LARGEST_ALIGNMENT) + 2 * SAMPLES + 1)

/* The receiver reads a sequence that begins so many bits inside a byte, and
 * samples. Lock is found with the last bit of the sequence: the bits after it
 * in its byte are held as the first ones of the next frame. */
static void check_lock_of(ows_receiver receiver, ows_u32 alignment, int bits) {
    ows_sender sender = ows_start_with(0x1ABCD, alignment).sender;
    size_t last = OWS_SEQUENCE_BYTES(alignment) - (bits == 0 ? 1 : 0);
    size_t length = OWS_SEQUENCE_BYTES(alignment) + 2 * SAMPLES, i;
    ows_u16 samples[SAMPLES], items[MOST_LINE];
    ows_u8 line[MOST_LINE];
    ows_receiver want = ows_fresh();
    for (i = 0; i < SAMPLES; i++) {
        samples[i] = (ows_u16)(random_number() & 0x3FFF);
    }
    ows_send(sender, samples, SAMPLES, line, length);
    move_line(line, length, bits);
    feed_whole(&receiver, line, last, items);
    CHECK_IS(receiver.mode, OWS_PROVE);
    want.mode = OWS_LOCKED;
    want.bits = bits == 0 ? 0 : (ows_u32)line[last] >> bits;
    want.count = (8 - (ows_u32)bits) % 8;
    want.state = rule_steps(0x1ABCD, 32);
    want.samples = receiver.samples;
    want.gaps = receiver.gaps;
    want.losses = receiver.losses;
    CHECK_IS(feed_whole(&receiver, line + last, 1, items), 0);
    CHECK_RECEIVER(receiver, want);
    CHECK_IS(feed_whole(&receiver, line + last + 1, length - last, items),
             SAMPLES);
    CHECK(memcmp(items, samples, sizeof samples) == 0);
}

/* A receiver in each mode that has read noise, or none. */
static void check_lock(ows_u32 alignment) {
    static const ows_receiver before[] = {
        {0, 0, 0, 0, 0, 0, 0, 0, 0, 0, 0, 0, 0, 0, 0},
        {1, 0x15, 5, 0xFF00, 0, 0, 0, 0, 0, 11, 12, 13, 14, -15, 16},
        {2, 0x0A, 4, 0, 0x2BCD, 0, 0, 0, 1, 11, 12, 13, 14, -15, 16},
        {3, 0x7F, 7, 0, 0, 31, 0, 0x1ABCD, 1, 11, 12, 13, 14, -15, 16},
        {4, 0x7FFF, 15, 0, 0, 0, 0, 0x1FFFF, 1, 11, 12, 13, 14, -15, 16},
    };
    size_t i;
    int bits;
    for (i = 0; i < LENGTH(before); i++) {
        for (bits = 0; bits < 8; bits++) {
            ows_u8 noise[MOST_NOISE];
            ows_u16 items[MOST_NOISE];
            ows_receiver receiver = before[i];
            size_t length = random_number() % (MOST_NOISE + 1), k;
            for (k = 0; k < length; k++) {
                noise[k] = (ows_u8)(random_number() & 0xFF);
            }
            check_lock_of(receiver, alignment, bits);
            feed_whole(&receiver, noise, length, items);
            check_lock_of(receiver, alignment, bits);
        }
    }
}

void check_alignment(void) {
    each_alignment(check_start_with);
    each_wrong_alignment(check_wrong_number);
    check_same_start(seeds, LENGTH(seeds));
    check_same_start(no_seeds, LENGTH(no_seeds));
    check_same_start(seeds_of_word_ff, LENGTH(seeds_of_word_ff));
    each_alignment(check_sequence);
    each_alignment(check_room);
    each_alignment(check_lock);
}
