/* Crossed lanes: every bit arrives inverted. Two receivers are fed side
 * by side, one the line as sent, the other each of its bytes inverted. */
#include "check.h"

#include <string.h>

/* Two records that are each other's inverse. Where any_sums is 1 their sums are
 * any numbers, and are not compared. */
typedef struct both {
    ows_receiver plain;
    ows_receiver crossed;
    int any_sums;
} both;

/* The inverse of a record: the bits held are inverted, and so is the frame of
 * Flash; the sums have the other sign; all else is equal. */
static ows_receiver inverse(const ows_receiver *receiver) {
    ows_receiver other = *receiver;
    other.bits ^= (ows_u32)((1UL << receiver->count) - 1);
    if (receiver->mode == OWS_FLASH) {
        other.frame ^= 0xFFFF;
    }
    other.sum = -receiver->sum;
    other.lowest = -receiver->highest;
    other.highest = -receiver->lowest;
    return other;
}

static void invert(ows_u8 *bytes, size_t length) {
    size_t i;
    for (i = 0; i < length; i++) {
        bytes[i] = (ows_u8)(255 - bytes[i]);
    }
}

/* Keeps the records after a call; they are each other's inverse again. */
static void keep_both(both *lanes, ows_receiver plain, ows_receiver crossed) {
    lanes->plain = plain;
    lanes->crossed = crossed;
    if (lanes->any_sums) {
        put_sums(&plain, 0);
        put_sums(&crossed, 0);
    }
    plain = inverse(&plain);
    CHECK_RECEIVER(crossed, plain);
}

/* Feeds the bytes to the one and their inverse to the other, with so many slots
 * each: refusal, bytes and slots used and the content of all slots are the
 * same. Gives the answer to the bytes as sent. */
static ows_fed feed_both(both *lanes, const ows_u8 *bytes, size_t length,
                         size_t slots_len) {
    size_t size = slots_len * sizeof(ows_u16), filled;
    ows_u8 *line = (ows_u8 *)lend_copy(bytes, length);
    ows_u16 *slots = (ows_u16 *)lend(size);
    ows_u16 *crossed_slots = (ows_u16 *)lend(size);
    ows_fed fed = feed_by_both(lanes->plain, line, length, slots, slots_len);
    ows_fed crossed;
    invert(line, length);
    crossed =
        feed_by_both(lanes->crossed, line, length, crossed_slots, slots_len);
    invert(line, length);
    CHECK_REFUSAL(fed.refusal, OWS_TAKEN);
    CHECK_REFUSAL(crossed.refusal, OWS_TAKEN);
    CHECK(fed.bytes <= length && fed.slots <= slots_len);
    CHECK_IS(crossed.bytes, fed.bytes);
    CHECK_IS(crossed.slots, fed.slots);
    filled = fed.slots <= slots_len ? fed.slots * sizeof *slots : 0;
    TAKE_BACK(crossed_slots, size, slots, filled);
    TAKE_BACK(slots, size, slots, filled);
    TAKE_BACK(line, length, bytes, length);
    keep_both(lanes, fed.receiver, crossed.receiver);
    return fed;
}

static void sync_both(both *lanes) {
    ows_receiver_synced synced = ows_receiver_sync(lanes->plain);
    ows_receiver_synced crossed = ows_receiver_sync(lanes->crossed);
    CHECK_REFUSAL(synced.refusal, OWS_TAKEN);
    CHECK_REFUSAL(crossed.refusal, OWS_TAKEN);
    keep_both(lanes, synced.receiver, crossed.receiver);
}

/* ---- Lines, from fresh receivers ---- */

#define PARTS 4
#define FRAMES 300
#define MOST_SEQUENCE OWS_SEQUENCE_BYTES(OWS_LARGEST_ALIGNMENT)
#define PART (40 + MOST_SEQUENCE + 2 * FRAMES)
#define LINE (PARTS * PART + 1)
#define MOST_CALLS 10000

/* Noise, a sequence and the samples, in so many bytes. */
static void send_line(ows_u8 *line, size_t length, ows_u32 alignment,
                      ows_u16 *samples, size_t count) {
    ows_u32 seed = ows_lane_seed((ows_u8)(random_number() & 0xFF));
    size_t used = OWS_SEQUENCE_BYTES(alignment) + 2 * count, i;
    ows_sent sent;
    for (i = 0; i < length - used; i++) {
        line[i] = (ows_u8)(random_number() & 0xFF);
    }
    for (i = 0; i < count; i++) {
        samples[i] = (ows_u16)(random_number() & 0x3FFF);
    }
    sent = ows_send(ows_start_with(seed, alignment).sender, samples, count,
                    line + length - used, used);
    CHECK_IS(sent.written, used);
}

/* Flips bits of frames, the clock bit always: bursts of one or two frames with
 * at least so many untouched ones before each. */
static void flip_bursts(ows_u8 *frames, size_t count, size_t apart) {
    size_t i = apart;
    while (i + 2 <= count) {
        size_t end = i + 1 + random_number() % 2;
        for (; i < end; i++) {
            frames[2 * i] ^= (ows_u8)(random_number() & 0xFF);
            frames[2 * i + 1] ^= (ows_u8)(0x40 | (random_number() & 0x3F));
        }
        i += apart + random_number() % 4;
    }
}

/* Feeds the line to fresh receivers, in pieces of any size and with any number
 * of slots, SYNC calls among them, and adds to the totals. */
static void feed_line(const ows_u8 *line, ows_u64 *totals) {
    both lanes;
    size_t used = 0;
    int calls;
    lanes.plain = lanes.crossed = ows_fresh();
    lanes.any_sums = 0;
    for (calls = 0; calls < MOST_CALLS && used < LINE; calls++) {
        size_t bytes = random_number() % 40, slots = random_number() % 20;
        bytes = bytes < LINE - used ? bytes : LINE - used;
        used += feed_both(&lanes, line + used, bytes, slots).bytes;
        if (random_number() % 100 == 0) {
            sync_both(&lanes);
        }
    }
    CHECK_IS(used, LINE);
    CHECK(lanes.crossed.mode != OWS_LOCKED);
    totals[0] += lanes.crossed.samples;
    totals[1] += lanes.crossed.gaps;
    totals[2] += lanes.crossed.losses;
}

/* Bursts with five untouched frames between, and in the second half of every
 * other part, the last one too, closer ones, which cost the lock. */
static void check_calls(int bits, ows_u64 *totals) {
    static ows_u8 line[LINE];
    ows_u16 samples[FRAMES];
    int part;
    for (part = 0; part < PARTS; part++) {
        ows_u8 *start = line + part * PART, *end = start + PART;
        send_line(start, PART, part < 2 ? 32 : 12, samples, FRAMES);
        flip_bursts(end - 2 * FRAMES, FRAMES / 2, 5);
        flip_bursts(end - FRAMES, FRAMES / 2, part % 2 == 0 ? 5 : 1);
    }
    move_line(line, LINE - 1, bits);
    feed_line(line, totals);
}

static void check_lists(void) {
    ows_u64 totals[3] = {0, 0, 0};
    int bits, times;
    for (bits = 0; bits < 8; bits++) {
        check_case("bits later", (ows_u64)bits);
        for (times = 0; times < 3; times++) {
            check_calls(bits, totals);
        }
    }
    check_case("totals of all lists", 0);
    CHECK(totals[0] > 5000 && totals[1] > 1000 && totals[2] > 15);
}

/* A fresh receiver on a crossed lane alone: after noise, one sequence locks it,
 * and it hands out just the samples. */
static void check_lock(ows_u32 alignment) {
    ows_u8 line[50 + MOST_SEQUENCE + 2 * 30 + 1];
    ows_u16 samples[30], items[sizeof line];
    int bits;
    for (bits = 0; bits < 8; bits++) {
        ows_receiver receiver = ows_fresh();
        send_line(line, sizeof line - 1, alignment, samples, 30);
        move_line(line, sizeof line - 1, bits);
        invert(line, sizeof line);
        CHECK_IS(feed_whole(&receiver, line, sizeof line, items), 30);
        CHECK(memcmp(items, samples, sizeof samples) == 0);
        CHECK_IS(receiver.mode, OWS_LOCKED);
        CHECK_IS(receiver.samples, 30);
        CHECK_IS(receiver.gaps + receiver.losses, 0);
    }
}

/* ---- Records of every mode, and each byte ---- */

/* A record, the bits that lead on from it (two frames in Hunt, else one), and
 * the modes that a byte may bring. */
typedef struct waiting {
    ows_receiver receiver;
    ows_u32 awaited;
    const char *after;
} waiting;

/* The states 1, 8, 0x48 follow each other. */
static const waiting records[] = {
    {{0, 0, 0, 0, 0, 0, 0, 0, 0, 1, 2, 3, 14, -15, 16}, 0x00FFFF00, "01"},
    {{1, 0, 0, 0xFF00, 0, 0, 0, 0, 0, 1, 2, 3, 14, -15, 16}, 0x00FF, "12"},
    {{1, 0, 0, 0x00FF, 0, 0, 0, 0, 0, 1, 2, 3, 14, -15, 16}, 0xFF00, "12"},
    {{2, 0, 0, 0, 1, 0, 0, 0, 0, 1, 2, 3, 14, -15, 16}, 0x4008, "023"},
    {{2, 0, 0, 0, 1, 0, 0, 0, 1, 1, 2, 3, 14, -15, 16}, 0x0008, "023"},
    {{3, 0, 0, 0, 0, 2, 0, 0x48, 1, 1, 2, 3, 14, -15, 16}, 0x0048, "03"},
    {{3, 0, 0, 0, 0, 31, 0, 0x48, 0, 1, 2, 3, 14, -15, 16}, 0x4048, "034"},
    {{4, 0, 0, 0, 0, 0, 0x80, 0x48, 0, 1, 2, 3, 14, -15, 16}, 0x0123, "4"},
    {{4, 0, 0, 0, 0, 0, 0x07, 0x48, 1, 1, 2, 3, 14, -15, 16}, 0x4123, "04"},
};

/* Each byte from the record and from its inverse, their sums opposite (kind
 * SUMS) or any; notes the modes after it. */
static void check_bytes(const ows_receiver *before, int kind, int *after) {
    ows_u32 value;
    both start;
    start.plain = *before;
    start.crossed = inverse(before);
    start.any_sums = kind < SUMS;
    if (start.any_sums) {
        put_sums(&start.plain, kind);
        put_sums(&start.crossed, SUMS - 1);
    }
    for (value = 0; value < 256; value++) {
        both lanes = start;
        ows_u8 byte = (ows_u8)value;
        CHECK_IS(feed_both(&lanes, &byte, 1, 1).bytes, 1);
        after[lanes.plain.mode % 5] = 1;
    }
    sync_both(&start);
}

/* With each number of bits held: the first of those awaited (of 32 held, the
 * latest 24 are the first 24 awaited); the same inverted; any. */
static void check_held(const waiting *record, int *after) {
    ows_u32 most = record->receiver.mode == OWS_HUNT ? 32 : 15, count;
    for (count = 0; count <= most; count++) {
        ows_u32 held = (ows_u32)((1UL << count) - 1);
        ows_u32 bits = record->awaited << (count == 32 ? 8 : 0);
        ows_receiver before = record->receiver;
        before.count = count;
        before.bits = bits & held;
        check_bytes(&before, SUMS, after);
        before.bits = ~bits & held;
        check_bytes(&before, (int)(count % SUMS), after);
        before.bits = random_number() & held;
        check_bytes(&before, SUMS, after);
    }
}

static void check_modes(void) {
    size_t i;
    int mode;
    for (i = 0; i < LENGTH(records); i++) {
        int after[5] = {0, 0, 0, 0, 0};
        check_case("record", i);
        check_held(&records[i], after);
        for (mode = 0; mode < 5; mode++) {
            CHECK_IS(after[mode], strchr(records[i].after, '0' + mode) != NULL);
        }
    }
}

/* One frame in Locked with sums that it does not hold at a limit. */
static void check_opposite(void) {
    static const ows_i32 sums[] = {0, 6, -6, MOST - 16, 16 - MOST};
    static const ows_i32 ends[] = {0, 20, -20, MOST, -MOST};
    static const ows_u8 frames[][2] = {
        {0x00, 0x00}, {0xFF, 0xFF}, {0x34, 0x12}, {0xFF, 0x81}};
    size_t i;
    for (i = 0; i < 5 * 5 * 5 * LENGTH(frames); i++) {
        const ows_u8 *frame = frames[i / 125];
        both lanes = {{4, 0, 0, 0, 0, 0, 0, 1, 0, 1, 2, 3, 0, 0, 0},
                      {0, 0, 0, 0, 0, 0, 0, 0, 0, 0, 0, 0, 0, 0, 0},
                      0};
        check_case("sums", i);
        lanes.plain.sum = sums[i % 5];
        lanes.plain.lowest = ends[i / 5 % 5];
        lanes.plain.highest = ends[i / 25 % 5];
        lanes.crossed = inverse(&lanes.plain);
        feed_both(&lanes, frame, 2, 2);
        CHECK_IS(lanes.crossed.sum,
                 -sums[i % 5] - rule_disparity(frame[0] | frame[1] << 8));
    }
}

void check_crossed(void) {
    check_lists();
    each_alignment(check_lock);
    check_modes();
    check_opposite();
}
