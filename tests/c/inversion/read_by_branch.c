/* To be compiled without optimization, so that the branch stays one. */
#include "inversion.h"

ows_u16 read_by_branch(ows_u16 frame) {
    if (frame & 0x8000) {
        frame = (ows_u16)(frame ^ 0xFFFF);
    }
    return frame;
}
