/*
 * strips.h - what the tests of stored strips share: the rules of both forms,
 * written the plain way, and calls with lent buffers.
 */
#ifndef STRIPS_H
#define STRIPS_H

#include "check.h"

/* The bytes of the longest strip. */
#define LONGEST 7683

/* The forms, and of each the call that writes it and the one that converts to
 * it. Form f is entry f - 1. */
#define FORMS 2
typedef ows_written writing_call(ows_u8 lane, const ows_u16 *items,
                                 size_t items_len, ows_u8 *buf, size_t buf_len);
typedef ows_converted converting_call(const ows_u8 *bytes, size_t bytes_len,
                                      ows_u8 *buf, size_t buf_len);
extern writing_call *const writing_calls[FORMS];
extern converting_call *const converting_calls[FORMS];

/* rule_write: writes the strip in a form, and tells its bytes. The buffer has
 * room for it, and the count and the items are in their ranges. */
size_t rule_write(int form, ows_u8 lane, const ows_u16 *items, size_t count,
                  ows_u8 *buf);
/* rule_read: what reading answers with so many slots. The items go to an array
 * of OWS_LARGEST_COUNT, as far as they are found. */
ows_reading rule_read(const ows_u8 *bytes, size_t bytes_len, size_t slots_len,
                      ows_u16 *items);

/* Writes the strip of a lane and its items in a form into so many bytes. It is
 * to be the one given, or the call refused with nothing written. */
void check_write(int form, ows_u8 lane, const ows_u16 *items, size_t items_len,
                 size_t buf_len, int refusal, const ows_u8 *strip,
                 size_t bytes);
/* Reads a strip with so many slots. The answer and the items are to be those
 * given, and later slots untouched. Without slots the answer is the same,
 * unless they are too few. */
void check_read(const ows_u8 *bytes, size_t bytes_len, size_t slots_len,
                const ows_reading *want, const ows_u16 *items);
/* A refused reading: zeros, and the slots untouched. */
void check_no_read(const ows_u8 *bytes, size_t bytes_len, size_t slots_len,
                   int refusal);
/* Converts a strip to a form, into so many bytes. The strip is to be the one
 * given, and later bytes untouched. */
void check_convert(int form, const ows_u8 *bytes, size_t bytes_len,
                   size_t buf_len, size_t used, const ows_u8 *strip,
                   size_t written);
/* A refused conversion: zeros, and the buffer untouched. */
void check_no_convert(int form, const ows_u8 *bytes, size_t bytes_len,
                      size_t buf_len, int refusal);
/* Reading with enough slots, checking and both conversions are refused by the
 * same number, also where the buffer is too short. */
void check_refused_strip(const ows_u8 *bytes, size_t bytes_len, int refusal);

#endif
