/*
 * check.h - what the C tests share: checks, the rules that values are compared
 * with, and lent buffers with guard bytes round them.
 *
 * All files here are both C89 and C++98.
 */
#ifndef CHECK_H
#define CHECK_H

#include "owsopel.h"

/* A check prints nothing where it holds, else 'FAILED file:line what'. */
#define CHECK(condition)                                                       \
    check_that((condition) ? 1 : 0, __FILE__, __LINE__, #condition)
#define CHECK_IS(got, want)                                                    \
    check_is((ows_u64)(got), (ows_u64)(want), __FILE__, __LINE__, #got)
/* As CHECK_IS, and notes the refusal as met. */
#define CHECK_REFUSAL(got, want)                                               \
    check_refusal((got), (want), __FILE__, __LINE__, #got)
#define CHECK_SENDER(got, want)                                                \
    check_sender(&(got), &(want), __FILE__, __LINE__, #got)
#define CHECK_RECEIVER(got, want)                                              \
    check_receiver(&(got), &(want), __FILE__, __LINE__, #got)
/* As CHECK_RECEIVER, of the three sums alone. */
#define CHECK_SUMS(got, want)                                                  \
    check_same_sums(&(got), &(want), __FILE__, __LINE__, #got)

#define LENGTH(array) (sizeof(array) / sizeof((array)[0]))

/* The case that later checks speak of, printed where one fails. */
void check_case(const char *name, ows_u64 number);

void check_that(int holds, const char *file, int line, const char *what);
void check_is(ows_u64 got, ows_u64 want, const char *file, int line,
              const char *what);
void check_refusal(ows_u8 got, int want, const char *file, int line,
                   const char *what);
void check_sender(const ows_sender *got, const ows_sender *want,
                  const char *file, int line, const char *what);
void check_receiver(const ows_receiver *got, const ows_receiver *want,
                    const char *file, int line, const char *what);

void check_same_sums(const ows_receiver *got, const ows_receiver *want,
                     const char *file, int line, const char *what);

/* How many checks failed. */
int check_failures(void);
/* Checks that each refusal, 0 to 13 and 19 to 21, was met by a call. */
void check_refusals_met(void);

/* Lent buffers. Their bytes, and the guard bytes before and after them, hold a
 * pattern. With GUARD_BYTES 0 a buffer has just its bytes, for a tool that
 * looks at every access. */
void *lend(size_t bytes);
/* A lent buffer with a copy of the bytes given. */
void *lend_copy(const void *from, size_t bytes);
/* Checks that the first bytes of a buffer are those given and that all others,
 * those of the guards included, still hold the pattern; then frees it. */
#define TAKE_BACK(lent, bytes, content, filled)                                \
    take_back(lent, bytes, content, filled, __FILE__, __LINE__)
void take_back(void *lent, size_t bytes, const void *content, size_t filled,
               const char *file, int line);

/* The rules of the documents, written the plain way. */
ows_u32 rule_next(ows_u32 state);
ows_u32 rule_steps(ows_u32 state, ows_u32 steps);
int rule_ones(ows_u32 number, int bits);
/* Ones minus zeros of a frame. */
int rule_disparity(ows_u32 frame);
/* Has the record's sums take in a frame of Locked. */
void rule_sums(ows_receiver *receiver, ows_u32 frame);
/* The limits of a sum. */
#define MOST 2147483647
#define LEAST (-2147483647 - 1)
/* Gives the record sums of a kind, 0 to SUMS - 1: zeros, numbers at and near
 * the limits, a lowest above the highest, any numbers. */
#define SUMS 12
void put_sums(ows_receiver *receiver, int kind);
/* Whether a sequence may have so many alignment frames. */
int rule_alignment(ows_u32 alignment);
/* Runs the check with each number of alignment frames that is permitted. */
void each_alignment(void (*check)(ows_u32 alignment));
/* Runs the check with many numbers that are not. */
void each_wrong_alignment(void (*check)(ows_u32 alignment));
/* A number of 32 bits, each time another. */
ows_u32 random_number(void);
/* Moves a line later by so many bits, 0 to 7, into one byte more. */
void move_line(ows_u8 *line, size_t length, int bits);

/* The two feeding calls, bit by bit and by whole frames, which do the same. */
#define FEEDS 2
typedef ows_fed feeding_call(ows_receiver receiver, const ows_u8 *bytes,
                             size_t bytes_len, ows_u16 *slots,
                             size_t slots_len);
extern feeding_call *const feeding_calls[FEEDS];
/* Feeds through both: the answers are the same in every field and so are the
 * items; all else is left as it was. Gives the answer of each in turn. */
ows_fed feed_by_both(ows_receiver receiver, const ows_u8 *bytes,
                     size_t bytes_len, ows_u16 *slots, size_t slots_len);
/* The same with a slot for each byte, all of which are used. Gives the number
 * of items. */
size_t feed_whole(ows_receiver *receiver, const ows_u8 *bytes, size_t length,
                  ows_u16 *items);
/* The same from lent buffers with so many slots: the items and the numbers of
 * bytes and slots used are to be those given. Gives the next record. */
ows_receiver check_feed(const ows_receiver *receiver, const ows_u8 *bytes,
                        size_t used, size_t bytes_len, const ows_u16 *items,
                        size_t count, size_t slots_len);

/* The subjects, one a file. */
void check_numbers(void);
void check_layout(void);
void check_frames(void);
void check_sending(void);
void check_sender_records(void);
void check_alignment(void);
void check_receiving(void);
void check_whole_frames(void);
void check_mixed(void);
void check_hits(void);
void check_sums(void);
void check_balance(void);
void check_spoiled_records(void);
void check_crossed(void);
void check_strips(void);
void check_two_forms(void);
void check_refused_strips(void);
void check_strip_walks(void);
void check_books(void);
void check_convention(void);
void check_line(void);

#endif
