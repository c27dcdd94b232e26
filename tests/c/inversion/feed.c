/* A line fed in one call: after the alignment frames, those of sample 0 and
 * those of the samples are inverted or not. The sums differ with that. */
#include "inversion.h"

#include <string.h>

#define ALIGNMENT 32
#define ZEROS 32
/* One byte more, for a line that begins up to 7 bits later. */
#define LINE_BYTES (2 * (ALIGNMENT + ZEROS + FRAMES) + 1)

static ows_u16 samples[ZEROS + FRAMES], frames[ZEROS + FRAMES];
static ows_u8 line[LINE_BYTES];
static ows_u16 items[LINE_BYTES];

static void prepare(int halves) {
    static ows_u8 inverted[ZEROS + FRAMES];
    ows_u32 state = 1;
    size_t i;
    for (i = 0; i < ZEROS + FRAMES; i++) {
        samples[i] = (ows_u16)(i < ZEROS ? 0 : random_number() & 0x3FFF);
    }
    choose_inverted(inverted, ZEROS + FRAMES, halves);
    for (i = 0; i < ZEROS + FRAMES; i++) {
        ows_u32 data = samples[i] ^ (state & 0x3FFF);
        frames[i] = inverted_if(inverted[i], plain_frame(data, i & 1));
        state = rule_next(state);
    }
    check_inverted(frames, ZEROS + FRAMES, halves);
}

/* Puts a frame at a place counted in bits. */
static void put(size_t place, ows_u16 frame) {
    size_t k;
    for (k = 0; k < 16; k++) {
        line[(place + k) / 8] |= (frame >> k & 1) << (place + k) % 8;
    }
}

static void make_line(size_t later) {
    size_t i;
    memset(line, 0, sizeof line);
    for (i = 0; i < ALIGNMENT; i++) {
        put(later + 16 * i, i % 2 == 0 ? 0xFF00 : 0x00FF);
    }
    for (i = 0; i < ZEROS + FRAMES; i++) {
        put(later + 16 * (ALIGNMENT + i), frames[i]);
    }
}

/* Feeds bytes that end with the samples' frames: the items are the samples, and
 * the sums are those given with these frames taken in. */
static void feed(feeding_call *call, ows_receiver receiver, const ows_u8 *bytes,
                 size_t length, ows_receiver sums) {
    ows_fed fed;
    size_t i;
    for (i = ZEROS; i < ZEROS + FRAMES; i++) {
        rule_sums(&sums, frames[i]);
    }
    memset(items, 0xFF, sizeof items);
    fed = call(receiver, bytes, length, items, length);
    CHECK_REFUSAL(fed.refusal, OWS_TAKEN);
    CHECK_IS(fed.bytes, length);
    CHECK_IS(fed.slots, FRAMES);
    CHECK_IS(fed.receiver.mode, OWS_LOCKED);
    CHECK_IS(fed.receiver.samples, FRAMES);
    CHECK_IS(fed.receiver.gaps + fed.receiver.losses, 0);
    CHECK_SUMS(fed.receiver, sums);
    CHECK(memcmp(items, samples + ZEROS, FRAMES * sizeof *items) == 0);
}

static void feed_lines(feeding_call *call, int halves) {
    size_t later;
    prepare(halves);
    for (later = 0; later < 8; later++) {
        check_case("bits later", later);
        make_line(later);
        feed(call, ows_fresh(), line, LINE_BYTES, ows_fresh());
    }
}

/* The samples' frames in Locked with each kind of sums, at so many bits of a
 * byte. Sums round 2^30 and -2^30 are not among them: beyond these
 * ows_feed_frames takes each frame by itself, so what it runs there depends on
 * the sum. */
static void feed_sums(feeding_call *call, size_t bits, int halves) {
    const size_t before = 2 * (ALIGNMENT + ZEROS) + 1;
    size_t later;
    int kind;
    prepare(halves);
    for (later = 0; later < bits; later++) {
        ows_receiver locked;
        make_line(later);
        locked = call(ows_fresh(), line, before, items, before).receiver;
        CHECK_IS(locked.mode, OWS_LOCKED);
        for (kind = 0; kind < SUMS; kind++) {
            check_case("kind of sums", (ows_u64)kind);
            put_sums(&locked, kind);
            feed(call, locked, line + before, LINE_BYTES - before, locked);
        }
    }
}

void list_feed(int halves) { feed_lines(ows_feed, halves); }
void list_feed_sums(int halves) { feed_sums(ows_feed, 1, halves); }
void list_feed_frames(int halves) { feed_lines(ows_feed_frames, halves); }
void list_feed_frames_sums(int halves) {
    feed_sums(ows_feed_frames, 8, halves);
}
