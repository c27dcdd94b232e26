/* The balance of a line since lock: the receiver's sums beside the sender's R,
 * and what is promised of them. */
#include "check.h"

#define SAMPLES 48
#define MOST_LINE (OWS_SEQUENCE_BYTES(OWS_LARGEST_ALIGNMENT) + 2 * SAMPLES + 1)
#define MOST_PIECE 9

/* Kinds of samples: any; all equal; all 0; all 16383; those that undo the
 * scrambling, so that the data of all frames is zeros, or ones; those that
 * bring R to 16 and to -16 in turn. */
#define SAMPLE_KINDS 7
#define SWINGING 6

typedef struct sent_line {
    ows_u8 bytes[MOST_LINE];
    size_t sequence;
    ows_i32 r[SAMPLES + 1]; /* at the sequence's end, and after each sample */
} sent_line;

/* The sample that brings R nearest to the one wanted. */
static ows_u16 sample_toward(const ows_sender *sender, int wanted) {
    ows_u32 word = sender->state & 0x3FFF;
    ows_u16 best = 0;
    int ones, least = 100;
    for (ones = 0; ones <= 14; ones++) {
        ows_u16 sample = (ows_u16)(((1U << ones) - 1) ^ word);
        int r = ows_build(sample, sender->state, sender->clock, sender->r).r;
        int apart = r > wanted ? r - wanted : wanted - r;
        if (apart < least) {
            least = apart;
            best = sample;
        }
    }
    return best;
}

static ows_u16 sample_of(int kind, const ows_sender *sender, size_t i) {
    ows_u32 word = sender->state & 0x3FFF;
    switch (kind) {
    case 0:
        return (ows_u16)(random_number() & 0x3FFF);
    case 1:
        return (ows_u16)(sender->seed & 0x3FFF);
    case 2:
        return 0;
    case 3:
        return OWS_LARGEST_SAMPLE;
    case 4:
        return (ows_u16)word;
    case 5:
        return (ows_u16)(0x3FFF - word);
    default:
        return sample_toward(sender, i / 6 % 2 == 0 ? 16 : -16);
    }
}

/* A sequence after any R, and samples. */
static void send_line(sent_line *line, ows_u32 alignment, int kind) {
    ows_u32 seed = ows_lane_seed((ows_u8)(random_number() & 0xFF));
    ows_sender sender = ows_start_with(seed, alignment).sender;
    size_t i;
    line->sequence = OWS_SEQUENCE_BYTES(alignment);
    sender.r = (ows_i32)(random_number() % 33) - 16;
    sender = ows_send(sender, NULL, 0, line->bytes, line->sequence).sender;
    line->r[0] = sender.r;
    for (i = 0; i < SAMPLES; i++) {
        ows_u16 sample = sample_of(kind, &sender, i);
        ows_u8 *place = line->bytes + line->sequence + 2 * i;
        sender = ows_send(sender, &sample, 1, place, 2).sender;
        line->r[i + 1] = sender.r;
    }
}

/* After so many frames since lock: the sums are those of the sender's R, and
 * they are as promised. */
static void check_promise(const ows_receiver *receiver, const sent_line *line,
                          size_t frames) {
    ows_receiver want = ows_fresh();
    size_t i;
    for (i = 1; i <= frames; i++) {
        ows_i32 sum = line->r[i] - line->r[0];
        want.sum = sum;
        want.lowest = sum < want.lowest ? sum : want.lowest;
        want.highest = sum > want.highest ? sum : want.highest;
    }
    CHECK_IS(receiver->mode, OWS_LOCKED);
    CHECK_SUMS(*receiver, want);
    CHECK(receiver->lowest <= 0 && receiver->highest >= 0);
    CHECK(receiver->lowest <= receiver->sum);
    CHECK(receiver->sum <= receiver->highest);
    CHECK(receiver->highest - receiver->lowest <= 32);
}

/* Feeds a line that begins so many bits inside a byte, in pieces up to a size,
 * to a receiver that is not locked: its sums rest until lock. Gives the modes
 * met, a bit for each. */
static ows_u32 check_fed(ows_receiver *receiver, const sent_line *line,
                         size_t bits, ows_u32 most) {
    size_t length = line->sequence + 2 * SAMPLES + 1, used = 0;
    size_t lock = 8 * line->sequence + bits;
    const ows_receiver before = *receiver;
    ows_u16 items[MOST_PIECE];
    ows_u32 modes = 0;
    while (used < length) {
        size_t piece = 1 + random_number() % most;
        piece = piece < length - used ? piece : length - used;
        feed_whole(receiver, line->bytes + used, piece, items);
        used += piece;
        modes |= 1U << receiver->mode;
        if (8 * used < lock) {
            CHECK_SUMS(*receiver, before);
        } else {
            check_promise(receiver, line, (8 * used - lock) / 16);
        }
    }
    return modes;
}

/* Lines of each kind at each bit of a byte, byte by byte to a receiver with the
 * sums of the line before, which SYNC leaves, and in pieces to one with any
 * sums. */
static void check_since_lock(ows_u32 alignment) {
    int kind, bits;
    for (kind = 0; kind < SAMPLE_KINDS; kind++) {
        ows_receiver receiver = ows_fresh();
        for (bits = 0; bits < 8; bits++) {
            sent_line line;
            ows_receiver kept;
            send_line(&line, alignment, kind);
            move_line(line.bytes, line.sequence + 2 * SAMPLES, bits);
            CHECK_IS(check_fed(&receiver, &line, (size_t)bits, 1), 0x1F);
            if (kind == SWINGING) {
                CHECK_IS(receiver.highest - receiver.lowest,
                         line.r[0] % 2 == 0 ? 32 : 30);
            }
            kept = receiver;
            receiver = ows_receiver_sync(receiver).receiver;
            CHECK_SUMS(receiver, kept);
            put_sums(&receiver, (int)(random_number() % SUMS));
            check_fed(&receiver, &line, (size_t)bits, MOST_PIECE);
            receiver = ows_receiver_sync(receiver).receiver;
        }
    }
}

void check_balance(void) { each_alignment(check_since_lock); }
