/* Which frames are inverted, and the rules of a frame. */
#include "inversion.h"

void choose_inverted(ows_u8 *inverted, size_t count, int halves) {
    size_t i;
    for (i = 0; i < count; i++) {
        inverted[i] = i < count * (size_t)halves / 2;
    }
    for (i = count; i > 1; i--) {
        size_t other = random_number() % i;
        ows_u8 kept = inverted[i - 1];
        inverted[i - 1] = inverted[other];
        inverted[other] = kept;
    }
}

void check_inverted(const ows_u16 *frames, size_t count, int halves) {
    size_t i, found = 0;
    for (i = 0; i < count; i++) {
        found += frames[i] >> 15;
    }
    CHECK_IS(found, count * (size_t)halves / 2);
}

ows_u16 plain_frame(ows_u32 data, ows_u32 clock) {
    return (ows_u16)(data | clock << 14);
}

ows_u16 inverted_if(ows_u8 inverted, ows_u16 plain) {
    return (ows_u16)(inverted ? 0xFFFF - plain : plain);
}

int inverts(int r, int disparity) {
    return r + disparity < -16 || r + disparity > 16;
}

int r_after(int r, int disparity) {
    return inverts(r, disparity) ? r - disparity : r + disparity;
}
