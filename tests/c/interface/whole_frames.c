/* Feeding by whole frames in Locked, with each number of bits held:
 * where bytes and slots end, and totals and sums near their limits. Each call
 * is made bit by bit too, and both are compared with the samples. */
#include "check.h"

#define FRAMES 12
/* The bytes of a line, which goes on with zeros after its frames. */
#define BYTES (2 * FRAMES + 4)
#define BITS_HELD 16

static const ows_receiver locked = {4, 0, 0, 0, 0, 0,  0x83, 0x1ABCD,
                                    0, 5, 6, 7, 8, -9, 10};

typedef struct sent_line {
    ows_u16 samples[FRAMES];
    ows_u16 frames[FRAMES + 1];
    ows_u8 bytes[BYTES];
} sent_line;

/* Kinds of frames: of any samples; each with as many zeros as can be; each with
 * as many ones. */
#define FRAME_KINDS 3

/* Sound frames for the locked record. */
static void make_frames(sent_line *line, int kind) {
    ows_u32 state = locked.state, clock = locked.clock;
    ows_i32 r = (ows_i32)(random_number() % 33) - 16;
    size_t i;
    for (i = 0; i < FRAMES; i++) {
        ows_u32 sample = kind == 0 ? random_number() : state;
        ows_built built =
            ows_build((ows_u16)(sample & 0x3FFF), state, clock, r);
        line->samples[i] = (ows_u16)(sample & 0x3FFF);
        line->frames[i] = built.frame;
        if (kind > 0) {
            line->frames[i] = (ows_u16)(clock << 14 ^ (kind == 1 ? 0 : 0xFFFF));
        }
        r = built.r;
        state = rule_next(state);
        clock = 1 - clock;
    }
    line->frames[FRAMES] = 0;
}

/* The line's bytes, from a bit of the first frame on. */
static void make_bytes(sent_line *line, size_t from) {
    size_t i, k;
    for (i = 0; i < BYTES; i++) {
        ows_u32 byte = 0;
        for (k = from + 8 * i; k < from + 8 * i + 8; k++) {
            ows_u32 frame = k / 16 < FRAMES ? line->frames[k / 16] : 0;
            byte |= (frame >> k % 16 & 1) << (k - from) % 8;
        }
        line->bytes[i] = (ows_u8)byte;
    }
}

/* The record after so many bits of the line: at most 15 after the frames. */
static ows_receiver after(ows_receiver receiver, const sent_line *line,
                          size_t bits) {
    ows_u32 frames = (ows_u32)(bits / 16), i;
    for (i = 0; i < frames; i++) {
        rule_sums(&receiver, line->frames[i]);
        receiver.results = 2 * receiver.results % 256;
        if (receiver.samples + 1 > 0) {
            receiver.samples++;
        }
    }
    receiver.count = (ows_u32)(bits % 16);
    receiver.bits = line->frames[frames] & ((1U << receiver.count) - 1);
    receiver.state = rule_steps(receiver.state, frames);
    receiver.clock = (receiver.clock + frames) % 2;
    return receiver;
}

/* The bytes with the rest of all frames. */
static size_t bytes_for(size_t held) { return (16 * FRAMES - held + 7) / 8; }

/* Feeds the line's bytes to the record, which holds the bits before them: so
 * many are used, and the items are the samples of the frames that end there. */
static void check_fed(const ows_receiver *start, const sent_line *line,
                      size_t held, size_t used, size_t length, size_t slots) {
    ows_receiver receiver = after(*start, line, held);
    ows_receiver want = after(*start, line, held + 8 * used);
    receiver = check_feed(&receiver, line->bytes, used, length, line->samples,
                          (held + 8 * used) / 16, slots);
    CHECK_RECEIVER(receiver, want);
}

/* Each number of bytes, the last of which ends at any bit of a frame, with a
 * slot more than there are items: all are used. */
static void check_bytes_end(const sent_line *line, size_t held) {
    size_t length;
    for (length = 0; held + 8 * length < 16 * FRAMES + 16; length++) {
        check_fed(&locked, line, held, length, length,
                  (held + 8 * length) / 16 + 1);
    }
}

/* Each number of slots. The byte that fills the last one is the last one used:
 * a byte is used only where a slot is free before it, also where it is the
 * first of the two that a frame needs. */
static void check_slots_end(const sent_line *line, size_t held) {
    size_t slots;
    for (slots = 0; slots <= FRAMES; slots++) {
        size_t used = slots == 0 ? 0 : (16 * slots - held + 7) / 8;
        check_fed(&locked, line, held, used, BYTES, slots);
    }
}

/* The total of samples reaches its largest value at each frame, or does not. */
static void check_total(const sent_line *line, size_t held) {
    const size_t length = bytes_for(held);
    ows_receiver start = locked;
    ows_u64 below;
    for (below = 0; below <= FRAMES + 1; below++) {
        start.samples = 0xFFFFFFFFFFFFFFFFUL - below;
        check_fed(&start, line, held, length, length, FRAMES + 1);
    }
}

/* Sums round a place, which the line brings to it, past it or away from it at
 * any of its frames. */
static void check_sums_round(const sent_line *line, size_t held, long place) {
    const size_t length = bytes_for(held);
    long sum = place - 16 * FRAMES - (long)(held % 5);
    for (; sum <= place + 16 * FRAMES; sum += 5) {
        ows_receiver start = locked;
        if (sum >= LEAST && sum <= MOST) {
            start.sum = start.lowest = start.highest = (ows_i32)sum;
            check_fed(&start, line, held, length, length, FRAMES + 1);
        }
    }
}

/* The places: 0, the limits, and half of them, beyond which the archive takes
 * each frame by itself. */
static void check_sums_near(const sent_line *line, size_t held) {
    static const long places[] = {LEAST, LEAST / 2, 0, MOST / 2 + 1, MOST};
    const size_t length = bytes_for(held);
    size_t i;
    int kind;
    for (kind = 0; kind < SUMS; kind++) {
        ows_receiver start = locked;
        put_sums(&start, kind);
        check_fed(&start, line, held, length, length, FRAMES + 1);
    }
    for (i = 0; i < LENGTH(places); i++) {
        check_sums_round(line, held, places[i]);
    }
}

void check_whole_frames(void) {
    size_t held;
    int kind;
    for (held = 0; held < BITS_HELD; held++) {
        for (kind = 0; kind < FRAME_KINDS; kind++) {
            sent_line line;
            make_frames(&line, kind);
            make_bytes(&line, held);
            check_case("bits held", held);
            check_bytes_end(&line, held);
            check_slots_end(&line, held);
            check_total(&line, held);
            check_sums_near(&line, held);
        }
    }
}
