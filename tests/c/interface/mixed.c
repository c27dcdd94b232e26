/* Feeding by whole frames where the mode changes: lock lost inside a
 * byte and found again, and lists of calls that mix both ways of feeding on one
 * record. */
#include "check.h"

#include <string.h>

#define SAMPLES 20
#define ALIGNMENT OWS_SMALLEST_ALIGNMENT
#define SEQUENCE OWS_SEQUENCE_BYTES(OWS_SMALLEST_ALIGNMENT)

/* ---- Loss of lock ---- */

#define MOST_SOUND 9
#define FAULTY 4
#define MOST_LINE (2 * (MOST_SOUND + FAULTY) + SEQUENCE + 2 * SAMPLES + 2)

typedef struct bit_line {
    ows_u8 bytes[MOST_LINE];
    size_t bits;
} bit_line;

/* Puts the lowest bits of a number at the line's end. */
static void put_bits(bit_line *line, ows_u32 number, size_t count) {
    size_t i;
    for (i = 0; i < count; i++, line->bits++) {
        line->bytes[line->bits / 8] |=
            (ows_u8)((number >> i & 1) << line->bits % 8);
    }
}

/* The first frames of the line in Locked, the last FAULTY of them with a wrong
 * clock bit, the first without the bits held; puts their items. */
static void put_frames(bit_line *line, ows_receiver *receiver, size_t sound,
                       ows_u16 *items) {
    ows_u32 state = receiver->state, clock = receiver->clock, held;
    size_t i;
    for (i = 0; i < sound + FAULTY; i++) {
        ows_u16 sample = (ows_u16)(random_number() & 0x3FFF);
        int is_sound = i < sound;
        ows_u32 frame =
            ows_build(sample, state, is_sound ? clock : 1 - clock, 0).frame;
        held = i == 0 ? receiver->count : 0;
        receiver->bits |= frame & ((1U << held) - 1);
        put_bits(line, frame >> held, 16 - held);
        items[i] = is_sound ? sample : OWS_GAP;
        state = rule_next(state);
        clock = 1 - clock;
    }
}

/* So many sound frames from the bits held on, four faulty ones, the last of
 * which ends inside a byte at each bit, and a sequence after it or up to 7 bits
 * later: its alignment frames are looked for from the very next bit on. */
static void check_loss(size_t held, size_t sound) {
    const ows_u64 most = 0xFFFFFFFFFFFFFFFFUL;
    ows_u8 sequence[SEQUENCE + 2 * SAMPLES];
    ows_u16 items[MOST_SOUND + FAULTY + SAMPLES], *samples;
    ows_receiver receiver = {4, 0, 0, 0, 0, 0,  0, 0x1ABCD,
                             1, 5, 0, 0, 8, -9, 10};
    size_t count = sound + FAULTY + SAMPLES, length, i;
    bit_line line;
    memset(&line, 0, sizeof line);
    receiver.count = (ows_u32)held;
    receiver.gaps = most - held % 6;
    receiver.losses = most - held % 3;
    put_frames(&line, &receiver, sound, items);
    put_bits(&line, random_number(), sound % 8);
    samples = items + sound + FAULTY;
    for (i = 0; i < SAMPLES; i++) {
        samples[i] = (ows_u16)(random_number() & 0x3FFF);
    }
    ows_send(ows_start_with(0x1FFFF, ALIGNMENT).sender, samples, SAMPLES,
             sequence, sizeof sequence);
    for (i = 0; i < sizeof sequence; i++) {
        put_bits(&line, sequence[i], 8);
    }
    length = (line.bits + 7) / 8;
    receiver = check_feed(&receiver, line.bytes, length, length, items, count,
                          count + 1);
    CHECK_IS(receiver.mode, OWS_LOCKED);
    CHECK_IS(receiver.samples, 5 + sound + SAMPLES);
    CHECK_IS(receiver.gaps, held % 6 < FAULTY ? most : most - held % 6 + 4);
    CHECK_IS(receiver.losses, held % 3 < 1 ? most : most - held % 3 + 1);
}

/* ---- Any record ---- */

static const ows_receiver modes[] = {
    {0, 0, 0, 0, 0, 0, 0, 0, 0, 11, 12, 13, 14, -15, 16},
    {1, 0, 0, 0xFF00, 0, 0, 0, 0, 0, 11, 12, 13, 14, -15, 16},
    {1, 0, 0, 0x00FF, 0, 0, 0, 0, 0, 11, 12, 13, 14, -15, 16},
    {2, 0, 0, 0, 0x2BCD, 0, 0, 0, 1, 11, 12, 13, 14, -15, 16},
    {3, 0, 0, 0, 0, 31, 0, 0x1ABCD, 1, 11, 12, 13, 14, -15, 16},
    {4, 0, 0, 0, 0, 0, 0x07, 0x1ABCD, 1, 11, 12, 13, 14, -15, 16},
};

/* With each number of bits held, of any value: up to 9 bytes of noise, of
 * alignment frames at any bit, or both, with any number of slots. */
static void check_any_bytes(ows_receiver receiver) {
    ows_u32 most = receiver.mode == OWS_HUNT ? 32 : 15;
    int times;
    for (receiver.count = 0; receiver.count <= most; receiver.count++) {
        for (times = 0; times < 100; times++) {
            ows_u8 bytes[10] = {0, 0xFF, 0xFF, 0, 0, 0xFF, 0xFF, 0, 0, 0xFF};
            ows_u16 *slots = (ows_u16 *)lend(20);
            size_t length = random_number() % 10;
            size_t noise = random_number() % 10, i;
            ows_fed fed;
            for (i = 0; i < noise; i++) {
                bytes[i] = (ows_u8)(random_number() & 0xFF);
            }
            move_line(bytes, 9, (int)(random_number() % 8));
            receiver.bits =
                (ows_u32)(random_number() & ((1UL << receiver.count) - 1));
            fed = feed_by_both(receiver, bytes, length, slots,
                               random_number() % 11);
            CHECK_REFUSAL(fed.refusal, OWS_TAKEN);
            TAKE_BACK(slots, 20, slots, fed.slots * sizeof *slots);
        }
    }
}

/* ---- Lists of calls on one line ---- */

#define PARTS 3
#define NOISE 30
#define FRAMES 150
#define PART (NOISE + SEQUENCE + 2 * FRAMES)
#define LINE (PARTS * PART + 1)

/* Noise, a sequence and frames, some with wrong bits, some of these so close
 * that lock is lost, three times. */
static void make_line(ows_u8 *line, int bits) {
    ows_u16 samples[FRAMES];
    size_t part, i;
    for (part = 0; part < PARTS; part++) {
        ows_u8 *start = line + part * PART;
        for (i = 0; i < FRAMES; i++) {
            samples[i] = (ows_u16)(random_number() & 0x3FFF);
        }
        for (i = 0; i < NOISE; i++) {
            start[i] = (ows_u8)(random_number() & 0xFF);
        }
        ows_send(ows_start_with(1, ALIGNMENT).sender, samples, FRAMES,
                 start + NOISE, PART - NOISE);
        for (i = NOISE + SEQUENCE; i < PART; i++) {
            if (random_number() % (i < PART - 60 ? 16 : 2) == 0) {
                start[i] ^= (ows_u8)(random_number() & 0xFF);
            }
        }
    }
    move_line(line, LINE - 1, bits);
}

/* Feeds the line to a fresh receiver, in pieces of any size and with any number
 * of slots, each by any of the calls. Gives the number of items. */
static size_t feed_mixed(const ows_u8 *line, ows_receiver *receiver,
                         ows_u16 *items) {
    size_t used = 0, count = 0;
    *receiver = ows_fresh();
    while (used < LINE) {
        feeding_call *feed = feeding_calls[random_number() % FEEDS];
        size_t length = random_number() % 40, slots = 1 + random_number() % 20;
        ows_fed fed;
        length = length < LINE - used ? length : LINE - used;
        slots = slots < LINE - count ? slots : LINE - count;
        fed = feed(*receiver, line + used, length, items + count, slots);
        CHECK_REFUSAL(fed.refusal, OWS_TAKEN);
        CHECK(fed.bytes <= length && fed.slots <= slots);
        if (fed.bytes > length || fed.slots > slots) {
            break;
        }
        *receiver = fed.receiver;
        used += fed.bytes;
        count += fed.slots;
    }
    return count;
}

/* The whole line in one call of each, and by a mixed list. */
static void check_lists(int bits) {
    static ows_u8 line[LINE];
    static ows_u16 items[LINE], mixed_items[LINE];
    ows_receiver receiver = ows_fresh(), mixed;
    size_t count;
    make_line(line, bits);
    count = feed_whole(&receiver, line, LINE, items);
    CHECK(receiver.samples > FRAMES && receiver.gaps > 0);
    CHECK(receiver.losses > 0);
    CHECK_IS(feed_mixed(line, &mixed, mixed_items), count);
    CHECK_RECEIVER(mixed, receiver);
    CHECK(memcmp(mixed_items, items, count * sizeof *items) == 0);
}

/* An undamaged line cut in two at each byte, the first part fed by one of the
 * calls, the rest by the other. */
static void check_cuts(int bits) {
    ows_u8 line[SEQUENCE + 2 * SAMPLES + 1];
    ows_u16 samples[SAMPLES];
    size_t cut, i;
    for (i = 0; i < SAMPLES; i++) {
        samples[i] = (ows_u16)(random_number() & 0x3FFF);
    }
    ows_send(ows_start_with(1, ALIGNMENT).sender, samples, SAMPLES, line,
             sizeof line - 1);
    move_line(line, sizeof line - 1, bits);
    for (cut = 0; cut <= sizeof line; cut++) {
        for (i = 0; i < FEEDS; i++) {
            ows_u16 items[SAMPLES + 1];
            ows_fed first =
                feeding_calls[i](ows_fresh(), line, cut, items, SAMPLES + 1);
            ows_fed rest = feeding_calls[1 - i](
                first.receiver, line + cut, sizeof line - cut,
                items + first.slots, SAMPLES + 1 - first.slots);
            CHECK_IS(first.bytes + rest.bytes, sizeof line);
            CHECK_IS(first.slots + rest.slots, SAMPLES);
            CHECK(memcmp(items, samples, sizeof samples) == 0);
            CHECK_IS(rest.receiver.mode, OWS_LOCKED);
            CHECK_IS(rest.receiver.samples, SAMPLES);
        }
    }
}

void check_mixed(void) {
    size_t held, sound, i;
    int bits, times;
    for (i = 0; i < LENGTH(modes); i++) {
        check_case("record", i);
        check_any_bytes(modes[i]);
    }
    for (held = 0; held < 16; held++) {
        check_case("bits held", held);
        for (sound = 0; sound <= MOST_SOUND; sound++) {
            check_loss(held, sound);
        }
    }
    for (bits = 0; bits < 8; bits++) {
        check_case("bits later", (ows_u64)bits);
        check_cuts(bits);
        for (times = 0; times < 10; times++) {
            check_lists(bits);
        }
    }
}
