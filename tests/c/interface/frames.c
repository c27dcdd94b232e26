/* The scrambler, seeds and single frames. */
#include "check.h"

static const ows_u32 no_states[] = {0, 0x20000, 0x80000000U, 0xFFFFFFFFU};

static void check_states(void) {
    static const ows_u32 row[] = {1, 8, 0x48, 0x208, 0x1248};
    ows_stepped stepped;
    ows_u32 state;
    size_t i;
    for (i = 0; i + 1 < LENGTH(row); i++) {
        stepped = ows_next(row[i]);
        CHECK_REFUSAL(stepped.refusal, OWS_TAKEN);
        CHECK_IS(stepped.state, row[i + 1]);
    }
    for (state = 1; state <= OWS_LARGEST_STATE; state++) {
        check_case("state", state);
        stepped = ows_next(state);
        CHECK_REFUSAL(stepped.refusal, OWS_TAKEN);
        CHECK_IS(stepped.state, rule_next(state));
    }
    for (i = 0; i < LENGTH(no_states); i++) {
        check_case("state", no_states[i]);
        stepped = ows_next(no_states[i]);
        CHECK_REFUSAL(stepped.refusal, OWS_RECORD);
        CHECK_IS(stepped.state, 0);
    }
}

/* From 1 on, 1 comes again for the first time after 131 071 steps. */
static void check_period(void) {
    ows_u32 state = 1, steps = 0;
    do {
        state = ows_next(state).state;
        steps++;
    } while (state != 1 && steps < 0x20000);
    CHECK_IS(steps, 131071);
}

static void check_seeds(void) {
    static const ows_u32 permitted[] = {1,       0xFE,    0x100,  0x4000,
                                        0x1C0FE, 0x1C100, 0x1FFFF};
    static const ows_u32 of_word_ff[] = {0xFF, 0x40FF, 0x100FF, 0x1C0FF};
    size_t i;
    for (i = 0; i < LENGTH(permitted); i++) {
        check_case("seed", permitted[i]);
        CHECK_REFUSAL(ows_check_seed(permitted[i]), OWS_TAKEN);
    }
    for (i = 0; i < LENGTH(of_word_ff); i++) {
        check_case("seed", of_word_ff[i]);
        CHECK_REFUSAL(ows_check_seed(of_word_ff[i]), OWS_SEED_WORD);
    }
    for (i = 0; i < LENGTH(no_states); i++) {
        check_case("seed", no_states[i]);
        CHECK_REFUSAL(ows_check_seed(no_states[i]), OWS_SEED_RANGE);
    }
    CHECK_REFUSAL(ows_check_seed(0x200FF), OWS_SEED_RANGE);
}

/* Entry k is the first permitted state found 512 * k or more steps after 1. */
static void check_lane_seeds(void) {
    ows_u32 state = 1, permitted;
    int lane;
    CHECK_IS(ows_lane_seed(0), 1);
    for (lane = 0; lane <= 255; lane++) {
        check_case("lane", (ows_u64)lane);
        permitted = state;
        while ((permitted & 0x3FFF) == 0xFF) {
            permitted = rule_next(permitted);
        }
        CHECK_IS(ows_lane_seed((ows_u8)lane), permitted);
        state = rule_steps(state, 512);
    }
}

static void check_disparities(void) {
    ows_u32 frame;
    CHECK_IS(ows_disparity(0), -16);
    CHECK_IS(ows_disparity(0xFFFF), 16);
    CHECK_IS(ows_disparity(0xFF00), 0);
    for (frame = 0; frame <= 0xFFFF; frame++) {
        check_case("frame", frame);
        CHECK_IS(ows_disparity((ows_u16)frame), rule_disparity(frame));
    }
}

typedef struct building {
    ows_u16 sample;
    ows_u32 state, clock;
    ows_i32 r;
    int refusal;
    ows_u16 frame;
    ows_i32 new_r;
} building;

/* Document 01's trial values, then the refusals in their order. */
static const building buildings[] = {
    {0, 1, 0, 0, 0, 0x0001, -14},
    {0, 8, 1, -14, 0, 0xBFF7, -2},
    {0, 0x48, 0, -2, 0, 0x0048, -14},
    {0, 0x208, 1, -14, 0, 0xBDF7, -4},
    {0, 0x1248, 0, -4, 0, 0x1248, -12},
    {1, 1, 0, 0, 0, 0x0000, -16},
    {1, 1, 0, -2, 0, 0xFFFF, 14},
    {1, 0x1C001, 0, 0, 0, 0x0000, -16},
    {0x3FFE, 1, 1, 2, 0, 0x7FFF, 16},
    {0x3FFE, 1, 1, 4, 0, 0x8000, -10},
    {0x01FE, 1, 0, 16, 0, 0xFE00, 14},
    {0x00FE, 1, 0, -16, 0, 0x00FF, -16},
    {0x000E, 1, 0, -5, 0, 0x000F, -13},
    {0x001E, 1, 0, -13, 0, 0xFFE0, -7},
    {16383, 0x1FFFF, 0, 0, 0, 0x0000, -16},
    {16384, 0, 2, 17, 3, 0, 0},
    {16384, 0x20000, 1, 17, 3, 0, 0},
    {16384, 1, 2, 17, 3, 0, 0},
    {0, 1, 0x10000, 0, 3, 0, 0},
    {0, 1, 0xFFFFFFFFU, 0, 3, 0, 0},
    {0, 0xFFFFFFFFU, 0, 0, 3, 0, 0},
    {16384, 1, 1, 17, 5, 0, 0},
    {0, 1, 1, -17, 5, 0, 0},
    {0, 1, 1, 2147483647, 5, 0, 0},
    {0, 1, 1, -2147483647 - 1, 5, 0, 0},
    {16384, 1, 1, 16, 4, 0, 0},
    {0x8000, 1, 1, 0, 4, 0, 0},
    {0xFFFF, 1, 1, -16, 4, 0, 0},
};

static void check_building(void) {
    size_t i;
    for (i = 0; i < LENGTH(buildings); i++) {
        const building *row = &buildings[i];
        ows_built built =
            ows_build(row->sample, row->state, row->clock, row->r);
        check_case("row", i);
        CHECK_REFUSAL(built.refusal, row->refusal);
        CHECK_IS(built.frame, row->frame);
        CHECK_IS(built.r, row->new_r);
    }
}

/* Every frame: the inversion is undone before clock bit and data are read; the
 * disparity is that of the frame as received. */
static void check_reading(void) {
    ows_u32 frame, plain;
    ows_content content;
    ows_sampled sampled;
    for (frame = 0; frame <= 0xFFFF; frame++) {
        plain = frame >= 0x8000 ? 0xFFFF - frame : frame;
        check_case("frame", frame);
        content = ows_read((ows_u16)frame);
        CHECK_IS(content.clock, plain >> 14);
        CHECK_IS(content.scrambled, plain & 0x3FFF);
        CHECK_IS(content.disparity, rule_disparity(frame));
        CHECK_IS(content.inverted, frame >> 15);
        sampled = ows_read_sample((ows_u16)frame, 0x1ABCD);
        CHECK_REFUSAL(sampled.refusal, OWS_TAKEN);
        CHECK_IS(sampled.sample, (plain & 0x3FFF) ^ 0x2BCD);
    }
}

static void check_no_reading(void) {
    size_t i;
    for (i = 0; i < LENGTH(no_states); i++) {
        ows_sampled sampled = ows_read_sample(0xBFF7, no_states[i]);
        check_case("state", no_states[i]);
        CHECK_REFUSAL(sampled.refusal, OWS_RECORD);
        CHECK_IS(sampled.sample, 0);
    }
}

/* 0x0001 then 0xBFF7 recover state 1. */
static void check_recovery(void) {
    ows_content p = ows_read(0x0001), q = ows_read(0xBFF7);
    ows_u32 state = p.scrambled + 16384U * (q.scrambled % 8U);
    CHECK_IS(state, 1);
    CHECK_IS(ows_next(state).state & 0x3FFF, q.scrambled);
    CHECK(p.clock != q.clock);
}

void check_frames(void) {
    check_states();
    check_period();
    check_seeds();
    check_lane_seeds();
    check_disparities();
    check_building();
    check_reading();
    check_no_reading();
    check_case("", 0);
    check_recovery();
}
