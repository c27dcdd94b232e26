/* Samples sent in one call, chosen so that their frames are inverted or not. */
#include "inversion.h"

#include <string.h>

#define DATA_BITS 14

/* lasting[R + 16][clock bit]: from there every list of frames to be inverted or
 * not can be had, however long. */
static int lasting[33][2];

/* Whether data with so many ones gives a frame inverted or not, as asked, and
 * leads to where any list can be had. */
static int gives(int r, ows_u32 clock, int ones, int inverted) {
    int disparity = 2 * (ones + (int)clock) - 16;
    return inverts(r, disparity) == inverted &&
           lasting[r_after(r, disparity) + 16][1 - clock];
}

static int can_give(int r, ows_u32 clock, int inverted) {
    int ones;
    for (ones = 0; ones <= DATA_BITS; ones++) {
        if (gives(r, clock, ones, inverted)) {
            return 1;
        }
    }
    return 0;
}

/* Takes out the places from where one of the two can't be had, and says how
 * many. */
static int take_out(void) {
    int r, taken_out = 0;
    ows_u32 clock;
    for (r = -16; r <= 16; r++) {
        for (clock = 0; clock <= 1; clock++) {
            if (lasting[r + 16][clock] &&
                !(can_give(r, clock, 0) && can_give(r, clock, 1))) {
                lasting[r + 16][clock] = 0;
                taken_out++;
            }
        }
    }
    return taken_out;
}

/* The lowest R from which, with clock bit 0, any list can be had; 17 if there
 * is none. */
static int first_r(void) {
    int r;
    for (r = -16; r <= 16; r++) {
        lasting[r + 16][0] = lasting[r + 16][1] = 1;
    }
    while (take_out() > 0) {
    }
    for (r = -16; r <= 16 && !lasting[r + 16][0]; r++) {
    }
    return r;
}

/* Any data that gives a frame inverted or not, as asked. */
static ows_u32 data_for(int r, ows_u32 clock, int inverted) {
    ows_u32 data = 0;
    int ones;
    do {
        ones = (int)(random_number() % (DATA_BITS + 1));
    } while (!gives(r, clock, ones, inverted));
    while (rule_ones(data, DATA_BITS) < ones) {
        data |= 1U << random_number() % DATA_BITS;
    }
    return data;
}

static ows_u16 samples[FRAMES], frames[FRAMES];

/* The samples and the frames they become; gives the record after them. */
static ows_sender prepare(ows_sender sender, int halves) {
    static ows_u8 inverted[FRAMES];
    size_t i;
    choose_inverted(inverted, FRAMES, halves);
    for (i = 0; i < FRAMES; i++) {
        ows_u32 data = data_for(sender.r, sender.clock, inverted[i]);
        ows_u16 plain = plain_frame(data, sender.clock);
        samples[i] = (ows_u16)(data ^ (sender.state & 0x3FFF));
        frames[i] = inverted_if(inverted[i], plain);
        sender.r = r_after(sender.r, rule_disparity(plain));
        sender.state = rule_next(sender.state);
        sender.clock = 1 - sender.clock;
    }
    check_inverted(frames, FRAMES, halves);
    return sender;
}

void list_send(int halves) {
    static ows_u8 buf[2 * FRAMES];
    ows_sender sender = {1, 0x1248, 0, 0, 64, 32}, after;
    ows_sent sent;
    size_t i;
    sender.r = first_r();
    CHECK(sender.r <= 16);
    if (sender.r > 16) {
        return;
    }
    after = prepare(sender, halves);
    sent = ows_send(sender, samples, FRAMES, buf, sizeof buf);
    CHECK_REFUSAL(sent.refusal, OWS_TAKEN);
    CHECK_IS(sent.stop, OWS_ALL_SENT);
    CHECK_IS(sent.taken, FRAMES);
    CHECK_IS(sent.written, sizeof buf);
    CHECK_SENDER(sent.sender, after);
    for (i = 0; i < FRAMES; i++) {
        check_case("frame number", i);
        CHECK_IS(buf[2 * i] | buf[2 * i + 1] << 8, frames[i]);
    }
}
