/* Lent buffers with guard bytes round them. */
#include "check.h"

#include <stdlib.h>
#include <string.h>

#ifndef GUARD_BYTES
#define GUARD_BYTES 32
#endif

/* The pattern, counted from the first byte lent. */
static unsigned char pattern(long place) {
    return (unsigned char)((place * 7 + 0xA5) & 0xFF);
}

void *lend(size_t bytes) {
    long place;
    unsigned char *whole = (unsigned char *)malloc(bytes + 2 * GUARD_BYTES);
    if (whole == NULL) {
        abort();
    }
    for (place = -GUARD_BYTES; place < (long)bytes + GUARD_BYTES; place++) {
        whole[place + GUARD_BYTES] = pattern(place);
    }
    return whole + GUARD_BYTES;
}

void *lend_copy(const void *from, size_t bytes) {
    void *lent = lend(bytes);
    if (bytes > 0) {
        memcpy(lent, from, bytes);
    }
    return lent;
}

static int holds_pattern(const unsigned char *lent, long from, long to) {
    long place;
    for (place = from; place < to; place++) {
        if (lent[place] != pattern(place)) {
            return 0;
        }
    }
    return 1;
}

void take_back(void *lent, size_t bytes, const void *content, size_t filled,
               const char *file, int line) {
    unsigned char *start = (unsigned char *)lent;
    long from = (long)filled, end = (long)bytes;
    check_that(filled == 0 || memcmp(lent, content, filled) == 0, file, line,
               "the buffer's content");
    check_that(holds_pattern(start, from, end), file, line,
               "the rest of the buffer is untouched");
    check_that(holds_pattern(start, -GUARD_BYTES, 0), file, line,
               "the bytes before the buffer are untouched");
    check_that(holds_pattern(start, end, end + GUARD_BYTES), file, line,
               "the bytes after the buffer are untouched");
    free(start - GUARD_BYTES);
}
