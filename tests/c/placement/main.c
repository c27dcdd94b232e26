/* Times ows_feed and ows_feed_frames, which the linker has put so many bytes
 * past a multiple of 64, and prints one row: both addresses modulo 64, then the
 * ns per bit of both and their ratio, on noise and on a locked line. Status 1
 * where the two do not give the same or a call is at another place, 2 where the
 * argument is wrong. */
#define _POSIX_C_SOURCE 199309L

#include "check.h"

#include <stdio.h>
#include <stdlib.h>
#include <string.h>
#include <time.h>

#define TIMES 41
#define NOISE_BYTES 1000000
#define FRAMES 250000
#define SEQUENCE OWS_SEQUENCE_BYTES(OWS_LARGEST_ALIGNMENT)

typedef ows_fed (*feeding)(ows_receiver receiver, const ows_u8 *bytes,
                           size_t bytes_len, ows_u16 *slots, size_t slots_len);

/* ows_feed and ows_feed_frames, and what each gave. */
static const feeding calls[] = {ows_feed, ows_feed_frames};
static ows_fed given[LENGTH(calls)];
static ows_u16 items[LENGTH(calls)][NOISE_BYTES];

/* The processor time of this thread, in ns. */
static double processor_time(void) {
    struct timespec time;
    CHECK_IS(clock_gettime(CLOCK_THREAD_CPUTIME_ID, &time), 0);
    return 1e9 * (double)time.tv_sec + (double)time.tv_nsec;
}

/* Both calls gave the same, and used all bytes. */
static void check_same(size_t length) {
    CHECK_IS(given[0].refusal, OWS_TAKEN);
    CHECK_IS(given[1].refusal, OWS_TAKEN);
    CHECK_IS(given[0].bytes, length);
    CHECK_IS(given[1].bytes, length);
    CHECK_IS(given[1].slots, given[0].slots);
    CHECK_RECEIVER(given[1].receiver, given[0].receiver);
    CHECK(memcmp(items[0], items[1], sizeof items[0]) == 0);
}

/* Feeds the bytes by each call in turn, each time from the same record, and
 * prints the least times and their ratio. */
static void compare(ows_receiver start, const ows_u8 *bytes, size_t length) {
    double least[LENGTH(calls)];
    size_t i;
    int times;
    for (times = 0; times < TIMES; times++) {
        for (i = 0; i < LENGTH(calls); i++) {
            double before = processor_time(), time;
            given[i] = calls[i](start, bytes, length, items[i], NOISE_BYTES);
            time = (processor_time() - before) / (8 * (double)length);
            least[i] = times == 0 || time < least[i] ? time : least[i];
        }
    }
    check_same(length);
    printf("%14.3f%8.3f%8.1f", least[0], least[1], least[0] / least[1]);
}

static void compare_noise(void) {
    static ows_u8 noise[NOISE_BYTES];
    size_t i;
    for (i = 0; i < NOISE_BYTES; i++) {
        noise[i] = (ows_u8)(random_number() >> 8);
    }
    compare(ows_fresh(), noise, NOISE_BYTES);
}

static void compare_locked_line(void) {
    static ows_u16 samples[FRAMES];
    static ows_u8 line[SEQUENCE + 2 * FRAMES];
    ows_sent sent;
    ows_fed fed;
    size_t i;
    for (i = 0; i < FRAMES; i++) {
        samples[i] = (ows_u16)(random_number() >> 8 & OWS_LARGEST_SAMPLE);
    }
    sent = ows_send(ows_start(1).sender, samples, FRAMES, line, sizeof line);
    CHECK_IS(sent.stop, OWS_ALL_SENT);
    fed = ows_feed(ows_fresh(), line, SEQUENCE, items[0], NOISE_BYTES);
    CHECK_IS(fed.receiver.mode, OWS_LOCKED);
    compare(fed.receiver, line + SEQUENCE, 2 * FRAMES);
    CHECK_IS(given[1].slots, FRAMES);
    CHECK(memcmp(items[1], samples, sizeof samples) == 0);
}

int main(int count, char **arguments) {
    size_t i;
    if (count != 2) {
        fprintf(stderr, "usage: program PLACE\n");
        return 2;
    }
    for (i = 0; i < LENGTH(calls); i++) {
        unsigned long place = (unsigned long)calls[i] % 64;
        CHECK_IS(place, atoi(arguments[1]));
        printf("%8lu", place);
    }
    compare_noise();
    compare_locked_line();
    printf("\n");
    return check_failures() > 0;
}
