/* A whole line: sent, fed, stored as strips, and read back. */
#include "check.h"

#include <stdlib.h>
#include <string.h>

#define SAMPLES 10000
#define NOISE 300
#define LINE (NOISE + OWS_SEQUENCE_BYTES(32) + 2 * SAMPLES + 1)
#define LANE 200
#define MOST_CALLS 100000

static ows_u16 samples[SAMPLES];
static ows_u16 items[LINE];

/* Sends all samples into the line, in pieces of any size. */
static void send_all(ows_u8 *line, size_t length) {
    ows_sender sender = ows_start(ows_lane_seed(LANE)).sender;
    size_t taken = 0, written = 0;
    int calls;
    for (calls = 0; calls < MOST_CALLS && written < length; calls++) {
        size_t most = random_number() % 50, room = random_number() % 90;
        ows_sent sent;
        most = most < SAMPLES - taken ? most : SAMPLES - taken;
        room = room < length - written ? room : length - written;
        sent = ows_send(sender, samples + taken, most, line + written, room);
        CHECK_REFUSAL(sent.refusal, OWS_TAKEN);
        CHECK_IS(sent.stop, sent.sender.position == 64 && sent.taken == most
                                ? OWS_ALL_SENT
                                : OWS_OUT_OF_SPACE);
        CHECK(sent.taken <= most && sent.written <= room);
        if (sent.taken > most || sent.written > room) {
            break;
        }
        sender = sent.sender;
        taken += sent.taken;
        written += sent.written;
    }
    CHECK_IS(taken, SAMPLES);
    CHECK_IS(written, length);
}

/* Feeds the line in pieces of any size and gives the number of items. */
static size_t feed_all(const ows_u8 *line, ows_receiver *receiver) {
    size_t used = 0, count = 0;
    int calls;
    for (calls = 0; calls < MOST_CALLS && used < LINE; calls++) {
        size_t bytes = random_number() % 60, slots = random_number() % 60;
        ows_fed fed;
        bytes = bytes < LINE - used ? bytes : LINE - used;
        fed = feed_by_both(*receiver, line + used, bytes, items + count, slots);
        CHECK_REFUSAL(fed.refusal, OWS_TAKEN);
        CHECK(fed.bytes == bytes || fed.slots == slots);
        CHECK(fed.bytes <= bytes && fed.slots <= slots);
        if (fed.bytes > bytes || fed.slots > slots) {
            break;
        }
        *receiver = fed.receiver;
        used += fed.bytes;
        count += fed.slots;
    }
    CHECK_IS(used, LINE);
    return count;
}

/* Stores the items as a book of strips and gives its length. */
static size_t write_book(ows_u8 *book, size_t room, size_t count) {
    size_t written = 0, stored = 0;
    while (stored < count) {
        size_t part = count - stored < 4096 ? count - stored : 4096;
        ows_written strip = ows_write_strip(LANE, items + stored, part,
                                            book + written, room - written);
        CHECK_REFUSAL(strip.refusal, OWS_TAKEN);
        CHECK(strip.bytes <= room - written);
        if (strip.bytes > room - written) {
            break;
        }
        written += strip.bytes;
        stored += part;
    }
    return written;
}

static void check_book(const ows_u8 *book, size_t bytes, size_t count) {
    static ows_u16 slots[OWS_LARGEST_COUNT];
    size_t used = 0, compared = 0;
    while (used < bytes) {
        ows_reading strip =
            ows_read_strip(book + used, bytes - used, slots, OWS_LARGEST_COUNT);
        CHECK_REFUSAL(strip.refusal, OWS_TAKEN);
        CHECK_IS(strip.lane, LANE);
        CHECK(strip.used > 0 && compared + strip.count <= count);
        if (strip.used == 0 || compared + strip.count > count) {
            break;
        }
        CHECK(memcmp(slots, items + compared, strip.count * sizeof *slots) ==
              0);
        used += strip.used;
        compared += strip.count;
    }
    CHECK_IS(compared, count);
}

/* The sums after lock and all frames of samples, which end before the line's
 * last byte. */
static ows_receiver sums_of(const ows_u8 *line) {
    const ows_u8 *frames = line + (LINE - 1 - 2 * SAMPLES);
    ows_receiver receiver = ows_fresh();
    size_t i;
    for (i = 0; i < 2 * SAMPLES; i += 2) {
        rule_sums(&receiver, (ows_u32)frames[i] | (ows_u32)frames[i + 1] << 8);
    }
    return receiver;
}

/* Noise, one sequence and all samples: once the line is used, the last items
 * are the samples. A flipped clock bit makes a gap of its frame alone. */
static void check_line_later_by(int bits) {
    ows_u8 *line = (ows_u8 *)malloc(LINE);
    ows_u8 *book = (ows_u8 *)malloc(OWS_STRIP_BYTES(LINE) + 9);
    ows_receiver receiver = ows_fresh(), want;
    size_t i, count, bytes;
    for (i = 0; i < NOISE; i++) {
        line[i] = (ows_u8)(random_number() & 0xFF);
    }
    for (i = 0; i < SAMPLES; i++) {
        samples[i] = (ows_u16)(random_number() & 0x3FFF);
    }
    send_all(line + NOISE, LINE - NOISE - 1);
    line[LINE - 1 - 2 * 77 + 1] ^= 0x40;
    want = sums_of(line);
    move_line(line + NOISE, LINE - NOISE - 1, bits);
    count = feed_all(line, &receiver);
    CHECK(count >= SAMPLES);
    count = count >= SAMPLES ? count : SAMPLES;
    samples[SAMPLES - 77] = OWS_GAP;
    CHECK(memcmp(items + (count - SAMPLES), samples, sizeof samples) == 0);
    CHECK_IS(receiver.mode, OWS_LOCKED);
    CHECK_IS(receiver.samples + receiver.gaps, count);
    CHECK_SUMS(receiver, want);
    bytes = write_book(book, OWS_STRIP_BYTES(LINE) + 9, count);
    check_book(book, bytes, count);
    free(line);
    free(book);
}

void check_line(void) {
    int bits;
    for (bits = 0; bits < 8; bits++) {
        check_case("bits later", (ows_u64)bits);
        check_line_later_by(bits);
    }
}
