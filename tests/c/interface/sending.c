/* The sender: started, and sending with 32 alignment frames. */
#include "check.h"

#include <string.h>

static const ows_sender zeros = {0, 0, 0, 0, 0, 0};

static void check_start(void) {
    static const ows_u32 permitted[] = {1, 0xFE, 0x4000, 0x1FFFF};
    static const ows_u32 refused[] = {0,           0x20000, 0x200FF,
                                      0xFFFFFFFFU, 0xFF,    0x1C0FF};
    size_t i;
    for (i = 0; i < LENGTH(permitted); i++) {
        ows_started started = ows_start(permitted[i]);
        ows_sender fresh = zeros;
        fresh.seed = permitted[i];
        fresh.state = permitted[i];
        fresh.alignment = 32;
        check_case("seed", permitted[i]);
        CHECK_REFUSAL(started.refusal, OWS_TAKEN);
        CHECK_SENDER(started.sender, fresh);
    }
    for (i = 0; i < LENGTH(refused); i++) {
        ows_started started = ows_start(refused[i]);
        check_case("seed", refused[i]);
        CHECK_REFUSAL(started.refusal, i < 4 ? OWS_SEED_RANGE : OWS_SEED_WORD);
        CHECK_SENDER(started.sender, zeros);
    }
}

/* What one sending call is given and what it answers. */
typedef struct sending {
    ows_u16 samples[3];
    size_t samples_len, buf_len;
    int refusal, stop;
    size_t taken, written;
} sending;

/* Sends from the record and gives the next one. The bytes written are to be
 * those given, and later ones untouched. */
static ows_sender check_send(const sending *row, const ows_sender *sender,
                             const ows_u8 *bytes) {
    size_t size = row->samples_len * sizeof(ows_u16);
    ows_u16 *samples = (ows_u16 *)lend_copy(row->samples, size);
    ows_u8 *buf = (ows_u8 *)lend(row->buf_len);
    ows_sent sent =
        ows_send(*sender, samples, row->samples_len, buf, row->buf_len);
    CHECK_REFUSAL(sent.refusal, row->refusal);
    CHECK_IS(sent.stop, row->stop);
    CHECK_IS(sent.taken, row->taken);
    CHECK_IS(sent.written, row->written);
    TAKE_BACK(samples, size, row->samples, size);
    TAKE_BACK(buf, row->buf_len, bytes, row->written);
    return sent.sender;
}

/* Seed 1 from R 0: 32 alignment frames, then five frames of sample 0. */
static void check_sequence(void) {
    static const sending part = {{0}, 0, 75, 0, OWS_OUT_OF_SPACE, 0, 74};
    static const sending rest = {{0}, 0, 200, 0, OWS_ALL_SENT, 0, 128 - 74};
    static const ows_u8 scrambled[10] = {0x01, 0x00, 0xF7, 0xBF, 0x48,
                                         0x00, 0xF7, 0xBD, 0x48, 0x12};
    static const ows_sender after = {1, 0x8008, 1, -12, 37, 32};
    ows_u8 bytes[200];
    ows_sender sender = ows_start(1).sender;
    ows_sent whole = ows_send(sender, NULL, 0, bytes, sizeof bytes);
    size_t i;
    for (i = 0; i < 64; i++) {
        CHECK_IS(bytes[i], i % 4 == 1 || i % 4 == 2 ? 0xFF : 0);
    }
    CHECK(memcmp(bytes + 64, scrambled, sizeof scrambled) == 0);
    CHECK_IS(whole.written, OWS_SEQUENCE_BYTES(32));
    sender = check_send(&part, &sender, bytes);
    CHECK_SENDER(sender, after);
    sender = check_send(&rest, &sender, bytes + 74);
    CHECK_SENDER(sender, whole.sender);
    CHECK_IS(sender.state, rule_steps(1, 32));
    CHECK_IS(sender.clock, 0);
    CHECK_IS(sender.position, 64);
}

/* How a call stops, and what it takes, from a record at position 64. */
static void check_stops(void) {
    static const sending rows[] = {
        {{0}, 0, 0, 0, OWS_ALL_SENT, 0, 0},
        {{0}, 0, 9, 0, OWS_ALL_SENT, 0, 0},
        {{1}, 1, 0, 0, OWS_OUT_OF_SPACE, 0, 0},
        {{1}, 1, 1, 0, OWS_OUT_OF_SPACE, 0, 0},
        {{1}, 1, 2, 0, OWS_ALL_SENT, 1, 2},
        {{1, 0x3FF7}, 2, 3, 0, OWS_OUT_OF_SPACE, 1, 2},
        {{1, 0x3FF7, 0x01B7}, 3, 7, 0, OWS_ALL_SENT, 3, 6},
        {{16384}, 1, 0, 4, OWS_STOP_REFUSED, 0, 0},
        {{1, 0x3FF7, 0xFFFF}, 3, 2, 4, OWS_STOP_REFUSED, 0, 0},
    };
    /* Frames 0x0000 (R -16), 0x7FFF (R -2) and 0x01FF (R 0). */
    static const ows_u8 bytes[6] = {0x00, 0x00, 0xFF, 0x7F, 0xFF, 0x01};
    static const ows_sender sender = {5, 1, 0, 0, 64, 32};
    static const ows_sender after[4] = {{5, 1, 0, 0, 64, 32},
                                        {5, 8, 1, -16, 64, 32},
                                        {5, 0x48, 0, -2, 64, 32},
                                        {5, 0x208, 1, 0, 64, 32}};
    size_t i;
    for (i = 0; i < LENGTH(rows); i++) {
        ows_sender next;
        check_case("row", i);
        next = check_send(&rows[i], &sender, bytes);
        CHECK_SENDER(next, after[rows[i].taken]);
    }
}

/* With length 0 the pointers are not used. */
static void check_no_buffers(void) {
    static const ows_sender waiting = {5, 1, 0, 0, 64, 32};
    static const ows_u16 samples[1] = {3};
    ows_u8 buf[2] = {0xA5, 0xA5};
    ows_sender fresh = ows_start(1).sender;
    ows_sent sent = ows_send(waiting, NULL, 0, NULL, 0);
    CHECK_IS(sent.stop, OWS_ALL_SENT);
    CHECK_SENDER(sent.sender, waiting);
    sent = ows_send(waiting, NULL, 0, buf, 2);
    CHECK_IS(sent.stop, OWS_ALL_SENT);
    CHECK_IS(buf[0], 0xA5);
    sent = ows_send(waiting, samples, 1, NULL, 0);
    CHECK_IS(sent.stop, OWS_OUT_OF_SPACE);
    CHECK_SENDER(sent.sender, waiting);
    sent = ows_send(fresh, NULL, 0, NULL, 0);
    CHECK_IS(sent.stop, OWS_OUT_OF_SPACE);
    CHECK_SENDER(sent.sender, fresh);
}

void check_sending(void) {
    check_start();
    check_case("", 0);
    check_sequence();
    check_stops();
    check_case("", 0);
    check_no_buffers();
}
