/* Hits: frames of which a bit is flipped on the line. What each costs, and what
 * the record then holds. */
#include "check.h"

#include <string.h>

#define MOST_BEFORE 9
#define MOST_HIT 17
#define MOST_FRAMES (MOST_BEFORE + MOST_HIT)
#define LOST 256

/* Frames in a row: x has its clock bit flipped, . is untouched. After each of
 * them the record has these results; LOST stands where lock is lost. */
typedef struct hit_frames {
    const char *frames;
    ows_u32 results[MOST_HIT];
} hit_frames;

static const hit_frames hits[] = {
    {"x........", {1, 2, 4, 8, 16, 32, 64, 128, 0}},
    {"xx........", {1, 3, 6, 12, 24, 48, 96, 192, 128, 0}},
    /* Bursts of two with five untouched frames between keep lock; with four
     * between, of which nothing is promised, they lose it. */
    {"xx.....xx........",
     {1, 3, 6, 12, 24, 48, 96, 193, 131, 6, 12, 24, 48, 96, 192, 128, 0}},
    {"xx....xx", {1, 3, 6, 12, 24, 48, 97, LOST}},
    /* The fourth fault of eight loses lock, in a row with the others or not;
     * a fault in every third frame never is the fourth. */
    {"xxxx", {1, 3, 7, LOST}},
    {"x.x.x.x", {1, 2, 5, 10, 21, 42, LOST}},
    {"x..x..x..x..", {1, 2, 4, 9, 18, 36, 73, 146, 36, 73, 146, 36}},
};

/* The line of a sender with seed 1. */
typedef struct sent_line {
    ows_u16 samples[MOST_FRAMES];
    ows_u8 sequence[OWS_SEQUENCE_BYTES(32)];
    ows_u8 frames[2 * MOST_FRAMES];
} sent_line;

static void send_line(sent_line *line) {
    ows_sent sent;
    size_t i;
    for (i = 0; i < MOST_FRAMES; i++) {
        line->samples[i] = (ows_u16)(random_number() & 0x3FFF);
    }
    sent = ows_send(ows_start(1).sender, NULL, 0, line->sequence,
                    sizeof line->sequence);
    sent = ows_send(sent.sender, line->samples, MOST_FRAMES, line->frames,
                    sizeof line->frames);
    CHECK_IS(sent.written, sizeof line->frames);
}

/* The record after the sequence: no faults, and clock bit 0 is expected. The
 * sums are 0. */
static ows_receiver check_lock(const sent_line *line) {
    ows_receiver want = ows_fresh();
    ows_u16 slot;
    ows_fed fed =
        feed_by_both(want, line->sequence, sizeof line->sequence, &slot, 1);
    want.mode = OWS_LOCKED;
    want.state = rule_steps(1, 32);
    CHECK_RECEIVER(fed.receiver, want);
    return fed.receiver;
}

/* One frame fed in Locked: the item, and the record after it. */
static ows_receiver check_frame(ows_receiver before, const ows_u8 *frame,
                                int item, ows_u32 results) {
    ows_receiver want = ows_fresh();
    ows_u16 slots[2] = {0, 0};
    ows_fed fed = feed_by_both(before, frame, 2, slots, 2);
    want.sum = before.sum;
    want.lowest = before.lowest;
    want.highest = before.highest;
    rule_sums(&want, (ows_u32)frame[0] | (ows_u32)frame[1] << 8);
    want.samples = before.samples + (item != OWS_GAP);
    want.gaps = before.gaps + (item == OWS_GAP);
    want.losses = before.losses + (results == LOST);
    if (results != LOST) {
        want.mode = OWS_LOCKED;
        want.results = results;
        want.state = rule_next(before.state);
        want.clock = 1 - before.clock;
    }
    CHECK_REFUSAL(fed.refusal, OWS_TAKEN);
    CHECK_IS(fed.bytes, 2);
    CHECK_IS(fed.slots, 1);
    CHECK_IS(slots[0], item);
    CHECK_RECEIVER(fed.receiver, want);
    return fed.receiver;
}

/* The sequence, so many untouched frames, then those given: a gap for each one
 * hit, and of each other one its sample. */
static void check_clock_hits(const hit_frames *hit, size_t before) {
    sent_line line;
    ows_receiver receiver;
    size_t i;
    send_line(&line);
    receiver = check_lock(&line);
    for (i = 0; i < before; i++) {
        receiver =
            check_frame(receiver, line.frames + 2 * i, line.samples[i], 0);
    }
    for (i = 0; i < strlen(hit->frames); i++) {
        ows_u8 *frame = line.frames + 2 * (before + i);
        int item = line.samples[before + i];
        if (hit->frames[i] == 'x') {
            frame[1] ^= 0x40;
            item = OWS_GAP;
        }
        receiver = check_frame(receiver, frame, item, hit->results[i]);
    }
}

/* Any one bit flipped costs the item of its frame alone: a bit of the data
 * makes a false sample, clock bit and disparity bit make a gap. */
static void check_any_bit(int bit) {
    int is_gap = bit >= 14;
    sent_line line;
    ows_receiver receiver;
    send_line(&line);
    line.frames[bit / 8] ^= (ows_u8)(1 << bit % 8);
    receiver = check_lock(&line);
    receiver = check_frame(receiver, line.frames,
                           is_gap ? OWS_GAP : line.samples[0] ^ 1 << bit,
                           is_gap ? 1 : 0);
    check_frame(receiver, line.frames + 2, line.samples[1], is_gap ? 2 : 0);
}

void check_hits(void) {
    size_t i, before;
    int bit;
    for (i = 0; i < LENGTH(hits); i++) {
        check_case("line of hits", i);
        for (before = 0; before <= MOST_BEFORE; before++) {
            check_clock_hits(&hits[i], before);
        }
    }
    for (bit = 0; bit < 16; bit++) {
        check_case("bit", (ows_u64)bit);
        check_any_bit(bit);
    }
}
