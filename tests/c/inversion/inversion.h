/*
 * inversion.h - what the lists of calls share: which frames are inverted, and
 * the rules of a frame. FRAMES, the frames of a list, is an even number that
 * the compiler is given.
 */
#ifndef INVERSION_H
#define INVERSION_H

#include "check.h"

/* Which frames of a list are inverted: none (halves 0), half of them in a
 * shuffled order (1), or all (2). */
void choose_inverted(ows_u8 *inverted, size_t count, int halves);
/* Checks that so many of the frames have the disparity bit 1. */
void check_inverted(const ows_u16 *frames, size_t count, int halves);

/* The frame with disparity bit 0. */
ows_u16 plain_frame(ows_u32 data, ows_u32 clock);
ows_u16 inverted_if(ows_u8 inverted, ows_u16 plain);
/* Whether a plain frame of this disparity is inverted when sent after R. */
int inverts(int r, int disparity);
/* R after that frame is sent. */
int r_after(int r, int disparity);

/* The lists, each of one call. But for what is inverted, a list is the same in
 * every run; only that of ows_send has other samples too, and that of ows_build
 * another R before each frame. */
void list_read(int halves);
void list_read_sample(int halves);
void list_build(int halves);
void list_feed(int halves);
void list_feed_sums(int halves);
void list_feed_frames(int halves);
void list_feed_frames_sums(int halves);
void list_send(int halves);

/* A reading with a branch on the disparity bit, to show that one is seen: the
 * plain frame. */
ows_u16 read_by_branch(ows_u16 frame);
void list_read_by_branch(int halves);

#endif
