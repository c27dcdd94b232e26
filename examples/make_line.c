/*
 * make_line.c - makes the line of one of four sites, damage and all.
 *
 *     make_line surge|connector|drift|crossed SEED FRAMES SENT [ALIGNMENT]
 *
 * writes the line's bytes to standard output and to the file SENT, a line
 * each, what a receiver can be asked for:
 *     sequence BYTE    a sequence whose last bit is in this byte of the line,
 *                      counted from 0
 *     sample NUMBER    a sample sent after it
 *     touched NUMBER   a sample sent after it whose frame was touched
 *
 * surge: a sequence and FRAMES samples; a surge, which leaves noise and loses
 * bits; one more sequence and FRAMES samples.
 *
 * connector: a sequence and FRAMES samples in which a loose contact touches one
 * or two frames now and then, with five untouched ones between at least; then
 * the connector is off, which leaves zeros; it is on again inside a frame, with
 * FRAMES samples and no sequence; at last a sequence, and FRAMES samples with
 * the loose contact.
 *
 * drift: a sequence and FRAMES samples in which a driver that weakens lets a
 * one of a frame arrive as a zero now and then, with five untouched frames
 * between at least.
 *
 * crossed: the line of the site connector with its two wires swapped, so that
 * every bit is inverted, the bits after the last frame too. SENT is the same.
 *
 * ALIGNMENT is the number of alignment frames in each sequence, 32 unless
 * given. One that is not permitted is refused and nothing is written.
 *
 * The same SEED makes the same line, and with another ALIGNMENT the same
 * samples and damage.
 *
 * Exit status: 0 where the line is written, else 2.
 */
#include "owsopel.h"

#include <stdio.h>
#include <stdlib.h>
#include <string.h>

#define SURGE_FRAMES 300
#define OFF_FRAMES 500

/* The longest burst of touched frames that a loose contact and a weak driver
 * leave, and the fewest untouched frames between two bursts. */
#define LOOSE_FRAMES 2
#define WEAK_FRAMES 1
#define UNTOUCHED_FRAMES 5

typedef struct site {
    ows_sender sender;
    ows_u32 random;   /* the generator of samples and damage */
    unsigned crossed; /* 1 where the line's two wires are swapped, else 0 */
    ows_u64 bits;     /* bits put on the line so far */
    unsigned byte;    /* the bits of the byte that is not yet written */
    FILE *sent;
} site;

/* A number from 0 up to below. */
static unsigned random_number(site *s, unsigned below) {
    s->random = s->random * 1664525 + 1013904223;
    return (s->random >> 16) % below;
}

/* ---- Bits and frames on the line ---- */

static void put_bit(site *s, unsigned bit) {
    s->byte |= (bit ^ s->crossed) << (s->bits % 8);
    s->bits++;
    if (s->bits % 8 == 0) {
        putchar((int)s->byte);
        s->byte = 0;
    }
}

/* Puts the bits of bytes from the given one on, each byte's lowest first. */
static void put_bits(site *s, const ows_u8 *bytes, size_t first, size_t end) {
    for (; first < end; first++)
        put_bit(s, ((unsigned)bytes[first / 8] >> (first % 8)) & 1);
}

/* Sends one random sample: gives its frame as two bytes, and the sample. */
static unsigned send_sample(site *s, ows_u8 *frame) {
    ows_u16 sample = (ows_u16)random_number(s, OWS_LARGEST_SAMPLE + 1);
    ows_sent sent = ows_send(s->sender, &sample, 1, frame, 2);
    s->sender = sent.sender;
    return sample;
}

/* Touches a frame, if this damage can, and says whether it did. */
typedef int damage(site *s, ows_u8 *frame);

/* Flips at least one bit. */
static int flip(site *s, ows_u8 *frame) {
    unsigned flips = 1 + random_number(s, 0xFFFF);
    frame[0] ^= (ows_u8)(flips & 0xFF);
    frame[1] ^= (ows_u8)(flips >> 8);
    return 1;
}

/* Makes a zero of one of the ones; a frame of zeros has none. */
static int weaken(site *s, ows_u8 *frame) {
    unsigned first = random_number(s, 16);
    unsigned i;
    for (i = first; i < first + 16; i++) {
        unsigned one = 1u << (i % 8);
        if ((frame[i / 8 % 2] & one) != 0) {
            frame[i / 8 % 2] ^= (ows_u8)one;
            return 1;
        }
    }
    return 0;
}

/* ---- Stretches of the line ---- */

/* A sequence, whole. The sender stands at position 0. */
static void put_sequence(site *s) {
    ows_u8 bytes[OWS_SEQUENCE_BYTES(OWS_LARGEST_ALIGNMENT)];
    ows_sent sent = ows_send(s->sender, NULL, 0, bytes, sizeof bytes);
    s->sender = sent.sender;
    put_bits(s, bytes, 0, 8 * sent.written);
    fprintf(s->sent, "sequence %lu\n", (s->bits - 1) / 8);
}

/* Samples after a sequence, with bursts of up to so many frames touched, unless
 * touch is NULL. */
static void put_samples(site *s, unsigned long frames, damage *touch,
                        unsigned longest) {
    unsigned untouched = 0, touched = 0;
    for (; frames > 0; frames--) {
        ows_u8 frame[2];
        unsigned sample = send_sample(s, frame);
        if (touch != NULL && untouched == 0 && touched == 0) {
            untouched = UNTOUCHED_FRAMES + random_number(s, 40);
            touched = 1 + random_number(s, longest);
        }
        if (touch != NULL && untouched == 0 && touch(s, frame)) {
            fprintf(s->sent, "touched %u\n", sample);
            touched--;
        } else {
            fprintf(s->sent, "sample %u\n", sample);
            untouched -= untouched > 0;
        }
        put_bits(s, frame, 0, 16);
    }
}

/* Frames that no receiver can read, as it lost lock and saw no sequence; some
 * of them are touched. */
static void put_unread(site *s, unsigned long frames) {
    for (; frames > 0; frames--) {
        ows_u8 frame[2];
        send_sample(s, frame);
        if (random_number(s, 8) == 0)
            flip(s, frame);
        put_bits(s, frame, 0, 16);
    }
}

/* Noise in the place of frames, with one bit of 64 or so lost. Their number is
 * odd, so that the next frames stand elsewhere. */
static void put_surge(site *s) {
    int lost = 0;
    int left;
    for (left = 16 * SURGE_FRAMES; left > 0; left--) {
        if (random_number(s, 64) == 0 || (left == 1 && lost % 2 == 0))
            lost++;
        else
            put_bit(s, random_number(s, 2));
    }
}

/* A line that nothing drives. */
static void put_zeros(site *s, unsigned long bits) {
    for (; bits > 0; bits--)
        put_bit(s, 0);
}

/* ---- The sites ---- */

static void make_surge(site *s, unsigned long frames) {
    put_sequence(s);
    put_samples(s, frames, NULL, 0);
    put_surge(s);
    ows_sync(&s->sender);
    put_sequence(s);
    put_samples(s, frames, NULL, 0);
}

static void make_connector(site *s, unsigned long frames) {
    put_sequence(s);
    put_samples(s, frames, flip, LOOSE_FRAMES);
    put_zeros(s, 16 * OFF_FRAMES + 3);
    put_unread(s, frames);
    ows_sync(&s->sender);
    put_sequence(s);
    put_samples(s, frames, flip, LOOSE_FRAMES);
}

static void make_drift(site *s, unsigned long frames) {
    put_sequence(s);
    put_samples(s, frames, weaken, WEAK_FRAMES);
}

static void make_crossed(site *s, unsigned long frames) {
    s->crossed = 1;
    make_connector(s, frames);
}

/* What makes the line of the site of this name, or NULL. */
typedef void maker(site *s, unsigned long frames);
static maker *maker_of(const char *name) {
    if (strcmp(name, "surge") == 0)
        return make_surge;
    if (strcmp(name, "connector") == 0)
        return make_connector;
    if (strcmp(name, "drift") == 0)
        return make_drift;
    if (strcmp(name, "crossed") == 0)
        return make_crossed;
    return NULL;
}

/* Makes the line of a site, up to a whole byte. */
static void make_line(site *s, maker *make, unsigned long frames) {
    make(s, frames);
    while (s->bits % 8 != 0)
        put_bit(s, random_number(s, 2));
}

/* ---- The program ---- */

static int is_number(const char *text) {
    return *text != '\0' && text[strspn(text, "0123456789")] == '\0';
}

/* Starts a sender with the number of alignment frames that the text tells. A
 * number past the type stands for its largest, which is refused too. */
static ows_started start(const char *alignment) {
    unsigned long number = strtoul(alignment, NULL, 10);
    if (number > 0xFFFFFFFF)
        number = 0xFFFFFFFF;
    return ows_start_with(1, (ows_u32)number);
}

int main(int argc, char **argv) {
    site s;
    ows_started started;
    const char *alignment = argc == 6 ? argv[5] : "32";
    maker *make = argc == 5 || argc == 6 ? maker_of(argv[1]) : NULL;
    if (make == NULL || !is_number(alignment)) {
        fprintf(stderr, "usage: make_line surge|connector|drift|crossed SEED "
                        "FRAMES SENT [ALIGNMENT]\n");
        return 2;
    }
    started = start(alignment);
    if (started.refusal != OWS_TAKEN) {
        fprintf(stderr, "make_line: %s alignment frames: refused with %d\n",
                alignment, started.refusal);
        return 2;
    }
    s.sender = started.sender;
    s.random = (ows_u32)strtoul(argv[2], NULL, 10);
    s.crossed = 0;
    s.bits = 0;
    s.byte = 0;
    s.sent = fopen(argv[4], "w");
    if (s.sent == NULL) {
        perror(argv[4]);
        return 2;
    }
    make_line(&s, make, strtoul(argv[3], NULL, 10));
    if (fclose(s.sent) != 0 || fflush(stdout) != 0 || ferror(stdout)) {
        perror("make_line: write");
        return 2;
    }
    return 0;
}
