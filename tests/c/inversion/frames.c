/* Lists of single frames: read, read with a state, and built. */
#include "inversion.h"

static ows_u32 states[FRAMES], clocks[FRAMES];
static ows_u16 samples[FRAMES], plain[FRAMES], frames[FRAMES];
static ows_u8 inverted[FRAMES];

static ows_u32 data_of(size_t i) { return plain[i] & 0x3FFF; }

/* Frames of any content, with the samples that their states give. A frame of
 * disparity 0 is left out: it is inverted after no R. */
static void prepare(int halves) {
    size_t i;
    for (i = 0; i < FRAMES; i++) {
        states[i] = 1 + random_number() % OWS_LARGEST_STATE;
        clocks[i] = random_number() & 1;
        do {
            plain[i] = plain_frame(random_number() & 0x3FFF, clocks[i]);
        } while (rule_disparity(plain[i]) == 0);
        samples[i] = (ows_u16)(data_of(i) ^ (states[i] & 0x3FFF));
    }
    choose_inverted(inverted, FRAMES, halves);
    for (i = 0; i < FRAMES; i++) {
        frames[i] = inverted_if(inverted[i], plain[i]);
    }
    check_inverted(frames, FRAMES, halves);
}

void list_read(int halves) {
    size_t i;
    prepare(halves);
    for (i = 0; i < FRAMES; i++) {
        ows_content content = ows_read(frames[i]);
        check_case("frame", frames[i]);
        CHECK_IS(content.clock, clocks[i]);
        CHECK_IS(content.scrambled, data_of(i));
        CHECK_IS(content.disparity, rule_disparity(frames[i]));
        CHECK_IS(content.inverted, inverted[i]);
    }
}

void list_read_sample(int halves) {
    size_t i;
    prepare(halves);
    for (i = 0; i < FRAMES; i++) {
        ows_sampled sampled = ows_read_sample(frames[i], states[i]);
        check_case("frame", frames[i]);
        CHECK_REFUSAL(sampled.refusal, OWS_TAKEN);
        CHECK_IS(sampled.sample, samples[i]);
    }
}

void list_read_by_branch(int halves) {
    size_t i;
    prepare(halves);
    for (i = 0; i < FRAMES; i++) {
        check_case("frame", frames[i]);
        CHECK_IS(read_by_branch(frames[i]), plain[i]);
    }
}

/* Any R after which a frame of this disparity is inverted, or is not. */
static int r_before(int disparity, ows_u8 asked) {
    int r;
    do {
        r = (int)(random_number() % 33) - 16;
    } while (inverts(r, disparity) != asked);
    return r;
}

void list_build(int halves) {
    static ows_u16 built[FRAMES];
    size_t i;
    prepare(halves);
    for (i = 0; i < FRAMES; i++) {
        int disparity = rule_disparity(plain[i]);
        int r = r_before(disparity, inverted[i]);
        ows_built answer = ows_build(samples[i], states[i], clocks[i], r);
        check_case("frame", frames[i]);
        CHECK_REFUSAL(answer.refusal, OWS_TAKEN);
        CHECK_IS(answer.frame, frames[i]);
        CHECK_IS(answer.r, r_after(r, disparity));
        built[i] = answer.frame;
    }
    check_case("", 0);
    check_inverted(built, FRAMES, halves);
}
