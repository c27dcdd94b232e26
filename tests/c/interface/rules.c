/* The rules that expected values are computed by, and what lines are made of.
 */
#include "check.h"

static ows_u32 bit(ows_u32 number, int place) { return number >> place & 1; }

/* Bit by bit: N(0), N(1), N(2) are L(14), L(15), L(16), and N(k) for k from 3
 * to 16 is L(k-3) xor L(k). */
ows_u32 rule_next(ows_u32 state) {
    int k;
    ows_u32 next = bit(state, 14) | bit(state, 15) << 1 | bit(state, 16) << 2;
    for (k = 3; k <= 16; k++) {
        next |= (bit(state, k - 3) ^ bit(state, k)) << k;
    }
    return next;
}

ows_u32 rule_steps(ows_u32 state, ows_u32 steps) {
    while (steps > 0) {
        state = rule_next(state);
        steps--;
    }
    return state;
}

int rule_ones(ows_u32 number, int bits) {
    int place, ones = 0;
    for (place = 0; place < bits; place++) {
        ones += (int)bit(number, place);
    }
    return ones;
}

int rule_disparity(ows_u32 frame) {
    int place, disparity = 0;
    for (place = 0; place < 16; place++) {
        disparity += bit(frame, place) == 1 ? 1 : -1;
    }
    return disparity;
}

void rule_sums(ows_receiver *receiver, ows_u32 frame) {
    long sum = (long)receiver->sum + rule_disparity(frame);
    sum = sum > MOST ? MOST : sum;
    sum = sum < LEAST ? LEAST : sum;
    receiver->sum = (ows_i32)sum;
    if (receiver->lowest > receiver->sum) {
        receiver->lowest = receiver->sum;
    }
    if (receiver->highest < receiver->sum) {
        receiver->highest = receiver->sum;
    }
}

void put_sums(ows_receiver *receiver, int kind) {
    static const ows_i32 kinds[SUMS - 1][3] = {
        {0, 0, 0},
        {4, -6, 8},
        {3, 9, -9},
        {-1, -1, -1},
        {MOST, MOST, MOST},
        {LEAST, LEAST, LEAST},
        {MOST - 7, 0, MOST - 7},
        {LEAST + 7, LEAST + 7, 0},
        {0, LEAST, MOST},
        {0, MOST, LEAST},
        {LEAST, MOST, 0},
    };
    int any = kind >= SUMS - 1;
    receiver->sum = any ? (ows_i32)random_number() : kinds[kind][0];
    receiver->lowest = any ? (ows_i32)random_number() : kinds[kind][1];
    receiver->highest = any ? (ows_i32)random_number() : kinds[kind][2];
}

int rule_alignment(ows_u32 alignment) {
    return alignment >= 12 && alignment <= 32 && alignment % 2 == 0;
}

static void run_with(ows_u32 alignment, void (*check)(ows_u32 alignment)) {
    check_case("alignment frames", alignment);
    check(alignment);
}

void each_alignment(void (*check)(ows_u32 alignment)) {
    ows_u32 alignment;
    for (alignment = 12; alignment <= 32; alignment += 2) {
        run_with(alignment, check);
    }
}

/* Those up to 70; each number up to 70 with a higher bit, so that its low bits
 * are a permitted number or not; others near the ends of types. */
void each_wrong_alignment(void (*check)(ows_u32 alignment)) {
    static const ows_u32 higher[] = {0x100, 0x10000, 0x80000000U};
    static const ows_u32 others[] = {0xFE,        0xFF,        0xFFFE,
                                     0xFFFF,      0x7FFFFFFFU, 0xFFFFFFE0U,
                                     0xFFFFFFF4U, 0xFFFFFFFEU, 0xFFFFFFFFU};
    ows_u32 alignment;
    size_t i;
    for (alignment = 0; alignment <= 70; alignment++) {
        if (!rule_alignment(alignment)) {
            run_with(alignment, check);
        }
        for (i = 0; i < LENGTH(higher); i++) {
            run_with(alignment + higher[i], check);
        }
    }
    for (i = 0; i < LENGTH(others); i++) {
        run_with(others[i], check);
    }
}

ows_u32 random_number(void) {
    static ows_u32 number = 2463534242U;
    number ^= number << 13;
    number ^= number >> 17;
    number ^= number << 5;
    return number;
}

void move_line(ows_u8 *line, size_t length, int bits) {
    ows_u32 held = random_number() & ((1U << bits) - 1);
    size_t i;
    for (i = 0; i <= length; i++) {
        held |= (i < length ? (ows_u32)line[i] : 0) << bits;
        line[i] = (ows_u8)(held & 0xFF);
        held >>= 8;
    }
}
