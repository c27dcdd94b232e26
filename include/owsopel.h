/*
 * owsopel.h - the C interface of Owsopel, a proved ESIstream lane.
 *
 * For C89 and later and C++98 and later, on 64-bit x86 Linux. Link with
 * libowsopel.a; it needs nothing else.
 *
 * All calls
 *   - take any numbers, records and bytes whatever: a call takes them, or
 *     refuses them by one of the numbers below. Nothing is undefined as long
 *     as the buffers are what the lengths say.
 *   - allocate nothing, keep nothing between calls, use no global variables and
 *     may be called from any thread. The caller keeps every record and buffer.
 *   - answer with the refusal first, if they can be refused: 0 where the call
 *     was taken. A refused call gives its number and zeros for the other
 *     values, gives the record back unaltered, and writes nothing to any
 *     buffer. Compare answers field by field: the bytes between fields have no
 *     set value.
 *
 * Lent buffers
 *   - A length is a number of elements.
 *   - Two buffers lent to one call must not overlap.
 *   - A pointer must be aligned for its type and hold for its length. With
 *     length 0 it is not used and may be NULL.
 *   - What is lent as const is only read.
 *
 * Refusals
 *    0  taken
 *    1  seed 0 or above 0x1FFFF
 *    2  seed whose word (its 14 low bits) is 0x00FF
 *    3  a state outside 1 to 0x1FFFF, a clock bit above 1, or a sender's or
 *       receiver's record with a part outside its range; results of which
 *       four or more are faulty are outside theirs
 *    4  sample above 16383
 *    5  running disparity R outside -16 to 16
 *    6  over 4096 items to be written
 *    7  an item above 16384 to be written
 *    8  buffer shorter than the strip
 *    9  under 3 bytes to be read
 *   10  a strip that tells a count above 4096
 *   11  fewer slots than the strip's count
 *   12  a strip's items run past the last byte
 *   13  a padding bit of a strip is 1
 *   19  a number of alignment frames that is odd or outside 12 to 32
 *   20  a strip whose first three bits are neither 000 (form one) nor 111
 *       (form two)
 *   21  a strip's run of gaps goes past the count, or follows a run shorter
 *       than 256
 */
#ifndef OWSOPEL_H
#define OWSOPEL_H

#include <stddef.h>

#ifdef __cplusplus
extern "C" {
#endif

/* Numbers. They are the types of <stdint.h>, which C89 has not. */
typedef unsigned char ows_u8;
typedef unsigned short ows_u16;
typedef unsigned int ows_u32;
typedef int ows_i32;
typedef unsigned long ows_u64;

/* The refusals by name. */
#define OWS_TAKEN 0
#define OWS_SEED_RANGE 1
#define OWS_SEED_WORD 2
#define OWS_RECORD 3
#define OWS_SAMPLE 4
#define OWS_DISPARITY 5
#define OWS_ITEMS_MANY 6
#define OWS_ITEM 7
#define OWS_BUFFER_SHORT 8
#define OWS_STRIP_SHORT 9
#define OWS_STRIP_COUNT 10
#define OWS_SLOTS_FEW 11
#define OWS_STRIP_CUT 12
#define OWS_STRIP_PADDING 13
#define OWS_ALIGNMENT 19
#define OWS_STRIP_FORM 20
#define OWS_STRIP_RUN 21

/* An item is a sample, 0 to OWS_LARGEST_SAMPLE, or a gap. */
#define OWS_LARGEST_SAMPLE 16383
#define OWS_GAP 16384

/* A state is 1 to OWS_LARGEST_STATE. */
#define OWS_LARGEST_STATE 0x1FFFF

/* A synchronisation sequence has an even number of alignment frames, from
 * OWS_SMALLEST_ALIGNMENT to OWS_LARGEST_ALIGNMENT, then 32 frames of sample 0.
 * Its bytes, with so many alignment frames. */
#define OWS_SMALLEST_ALIGNMENT 12
#define OWS_LARGEST_ALIGNMENT 32
#define OWS_SEQUENCE_BYTES(alignment) (2 * ((size_t)(alignment) + 32))

/* The items that one strip can hold, and the bytes of the longest strip of so
 * many items, in either form. After 24 bits a sample takes 15; a gap takes one
 * in form one, and in form two a run of up to 256 gaps takes nine. */
#define OWS_LARGEST_COUNT 4096
#define OWS_STRIP_BYTES(items) ((24 + 15 * (size_t)(items) + 7) / 8)

/* ---- The scrambler and single frames ---- */

/* ows_next: the state after the given one. From every state, the state is back
 * for the first time after 131 071 steps. Refusal 3. */
typedef struct ows_stepped {
    ows_u8 refusal;
    ows_u32 state;
} ows_stepped;
ows_stepped ows_next(ows_u32 state);

/* ows_check_seed: 0 where a sender can start with the seed, else refusal 1 or
 * 2. */
ows_u8 ows_check_seed(ows_u32 seed);

/* ows_lane_seed: the seed of a lane, from a constant table of 256. Never
 * refused; every entry is permitted, and no two are closer than 511 steps. */
ows_u32 ows_lane_seed(ows_u8 lane);

/* ows_disparity: the ones minus the zeros of a frame. Never refused. */
ows_i32 ows_disparity(ows_u16 frame);

/* ows_build: the frame of a sample, scrambled with the state's word, and the
 * new R. Refusals 3 (state or clock bit), 5, 4, in this order. */
typedef struct ows_built {
    ows_u8 refusal;
    ows_u16 frame;
    ows_i32 r;
} ows_built;
ows_built ows_build(ows_u16 sample, ows_u32 state, ows_u32 clock, ows_i32 r);

/* ows_read: the clock bit of a frame and its data as scrambled, its inversion
 * undone first; and of the frame as received its ones minus its zeros, and 1
 * where it was inverted, else 0. Never refused. */
typedef struct ows_content {
    ows_u32 clock;
    ows_u16 scrambled;
    ows_i32 disparity;
    ows_u32 inverted;
} ows_content;
ows_content ows_read(ows_u16 frame);

/* ows_read_sample: the sample of a frame, with the state that scrambled it.
 * Refusal 3. */
typedef struct ows_sampled {
    ows_u8 refusal;
    ows_u16 sample;
} ows_sampled;
ows_sampled ows_read_sample(ows_u16 frame, ows_u32 state);

/* ---- The sender ---- */

/* The record: seed (permitted), state, next clock bit, R (-16 to 16), position
 * (0 to alignment + 32; below that the sequence is being sent) and number of
 * alignment frames (even, 12 to 32). */
typedef struct ows_sender {
    ows_u32 seed;
    ows_u32 state;
    ows_u32 clock;
    ows_i32 r;
    ows_u32 position;
    ows_u32 alignment;
} ows_sender;

/* ows_start: a fresh sender at position 0, whose sequences have 32 alignment
 * frames. Refusals 1, 2, with a record of zeros. */
typedef struct ows_started {
    ows_u8 refusal;
    ows_sender sender;
} ows_started;
ows_started ows_start(ows_u32 seed);

/* ows_start_with: the same with so many alignment frames, which make a shorter
 * sequence for a slow lane. Receivers are not told the number and lock all the
 * same. Refusals 1, 2, 19, in this order, with a record of zeros. */
ows_started ows_start_with(ows_u32 seed, ows_u32 alignment);

/* ows_sync: has the sequence sent again. In the record lent, state becomes the
 * seed, clock bit and position become 0; seed, R and alignment remain.
 * Refusal 3, the record unaltered. The pointer must not be NULL. */
ows_u8 ows_sync(ows_sender *sender);

/* How ows_send stopped. */
#define OWS_STOP_REFUSED 0
#define OWS_ALL_SENT 1
#define OWS_OUT_OF_SPACE 2

/* ows_send: sends what is left of the sequence, then the samples, two bytes a
 * frame, and stops when all is sent or when under two bytes are left. Gives
 * the next record, the samples taken and the bytes written. The buffer's later
 * bytes keep their content. Refusals 3, then 4 for any sample of the list, the
 * record unaltered. */
typedef struct ows_sent {
    ows_u8 refusal;
    ows_u8 stop;
    ows_sender sender;
    size_t taken;
    size_t written;
} ows_sent;
ows_sent ows_send(ows_sender sender, const ows_u16 *samples, size_t samples_len,
                  ows_u8 *buf, size_t buf_len);

/* ---- The receiver ---- */

/* The modes by number. */
#define OWS_HUNT 0
#define OWS_FLASH 1
#define OWS_FIRST 2
#define OWS_PROVE 3
#define OWS_LOCKED 4

/* The record: a mode, its parts, three totals that stay at their largest value
 * once there, and three sums. A part that the mode has not is 0; so are the
 * places of bits that are not held. In every mode, the bits held are the lowest
 * count of bits, the earliest lowest: up to 32 in Hunt, up to 15 in the others.
 *
 * In Locked a frame is faulty if its clock bit is not the expected one, which
 * toggles with every frame. A faulty frame gives a gap, a sound one its sample.
 * When four of the last eight frames since locking are faulty, lock is lost.
 *
 * The sums tell the balance of the line. All three become 0 at each lock and
 * rest outside Locked. In Locked every frame counts as received, faulty or not,
 * also the one that loses lock. A sum is held at the limits of 32 signed bits.
 * A record may hold any three numbers as its sums. From the lock that an
 * undamaged sequence gives, on undamaged frames with no further SYNC, highest
 * minus lowest is at most 32. */
typedef struct ows_receiver {
    ows_u32 mode;
    ows_u32 bits;
    ows_u32 count;
    ows_u32 frame;   /* Flash: the frame held, 0xFF00 or 0x00FF */
    ows_u32 word;    /* First: the data of the frame read */
    ows_u32 read;    /* Prove: frames read, 2 to 31 */
    ows_u32 results; /* Locked: of the last eight frames, 0 to 255, a 1 for
                      * each faulty one, the latest lowest; at most three are
                      * 1, all are 0 at lock */
    ows_u32 state;   /* Prove, Locked: the scrambler's state */
    ows_u32 clock;   /* First, Prove: the last frame's clock bit;
                      * Locked: the clock bit expected of the next frame */
    ows_u64 samples;
    ows_u64 gaps;
    ows_u64 losses;
    ows_i32 sum;     /* ones minus zeros of the frames since lock */
    ows_i32 lowest;  /* the lowest sum at lock and at the frames' ends */
    ows_i32 highest; /* the highest sum there */
} ows_receiver;

/* ows_fresh: a receiver in Hunt, its totals and sums 0. Never refused. */
ows_receiver ows_fresh(void);

/* ows_receiver_sync: the record in Hunt with no bits held, its totals and sums
 * kept. Refusal 3, the record unaltered. */
typedef struct ows_receiver_synced {
    ows_u8 refusal;
    ows_receiver receiver;
} ows_receiver_synced;
ows_receiver_synced ows_receiver_sync(ows_receiver receiver);

/* ows_feed: reads bytes of the line and puts items into the slots, until the
 * bytes are used or no slot is free before a byte. Gives the next record, its
 * totals and sums going on from those given, the bytes used and the slots used;
 * later slots keep their content. With a slot for every byte all bytes are
 * used, since a byte gives at most one item; with at least one slot at least
 * one byte is used; with no slots none is, in any mode. Refusal 3, the record
 * unaltered. ows_feed goes bit by bit; ows_feed_frames, below, does the same
 * faster.
 *
 * From a fresh record, a lane whose two wires are swapped, so that every bit
 * arrives inverted, gives the same items, bytes and slots used and totals, call
 * by call. Its sums have the other sign, lowest and highest in each other's
 * place, unless the lowest or the highest is at a limit of 32 bits. */
typedef struct ows_fed {
    ows_u8 refusal;
    ows_receiver receiver;
    size_t bytes;
    size_t slots;
} ows_fed;
ows_fed ows_feed(ows_receiver receiver, const ows_u8 *bytes, size_t bytes_len,
                 ows_u16 *slots, size_t slots_len);

/* ows_feed_frames: what ows_feed does, by whole frames. For every record, bytes
 * and slots it gives the same answer and the same content of all slots; refusal
 * 3 too. Outside Hunt it takes the rest of a frame from the bytes in one go, at
 * any bit offset. A list of calls may mix the two on one record. It was
 * measured to be about eight times as fast on a locked line and five times or
 * more on noise; no speed is promised. */
ows_fed ows_feed_frames(ows_receiver receiver, const ows_u8 *bytes,
                        size_t bytes_len, ows_u16 *slots, size_t slots_len);

/* ---- Stored strips ----
 * A strip has one of two forms: form one, and form two, which is shorter where
 * gaps come in long runs. Reading takes both. Reading, checking and converting
 * keep the items in an array of their own: they need up to 9 kB of stack. */

/* ows_write_strip: writes the strip of a lane and its items in form one, and
 * tells its bytes; the buffer's later bytes keep their content. A strip of n
 * items has at most OWS_STRIP_BYTES(n). Refusals 6, 7, 8, in this order. */
typedef struct ows_written {
    ows_u8 refusal;
    size_t bytes;
} ows_written;
ows_written ows_write_strip(ows_u8 lane, const ows_u16 *items, size_t items_len,
                            ows_u8 *buf, size_t buf_len);

/* ows_write_short_strip: the same in form two, in which a run of up to 256 gaps
 * takes nine bits in place of one for each gap. It is never longer where runs
 * have nine gaps or more on average, and else by at most one byte a run. */
ows_written ows_write_short_strip(ows_u8 lane, const ows_u16 *items,
                                  size_t items_len, ows_u8 *buf,
                                  size_t buf_len);

/* ows_read_strip: reads the strip at the start of the bytes, of either form:
 * its lane, its number of items, its form (1 or 2), the bytes it uses, and the
 * items into the slots; later slots keep their content. Bytes after the strip
 * do not matter. A book is strips end to end, of either form: read the next one
 * after the bytes used. Refusals 9, 20, 10, 11, then 12 or 21, whichever comes
 * earlier in the strip, 13. */
typedef struct ows_reading {
    ows_u8 refusal;
    ows_u8 lane;
    ows_u16 count;
    ows_u8 form;
    size_t used;
} ows_reading;
ows_reading ows_read_strip(const ows_u8 *bytes, size_t bytes_len,
                           ows_u16 *slots, size_t slots_len);

/* ows_check_strip: what reading answers, without slots, so that 11 does not
 * arise. */
ows_reading ows_check_strip(const ows_u8 *bytes, size_t bytes_len);

/* ows_shorten_strip, ows_expand_strip: the strip at the start of the bytes, in
 * form two and in form one, into the buffer: the bytes it uses and the bytes
 * written; the buffer's later bytes keep their content. A strip already in the
 * wanted form is carried over. Shortening and expanding again gives the same
 * bytes, and the other way round. Refusals as with ows_check_strip, then 8. */
typedef struct ows_converted {
    ows_u8 refusal;
    size_t used;
    size_t bytes;
} ows_converted;
ows_converted ows_shorten_strip(const ows_u8 *bytes, size_t bytes_len,
                                ows_u8 *buf, size_t buf_len);
ows_converted ows_expand_strip(const ows_u8 *bytes, size_t bytes_len,
                               ows_u8 *buf, size_t buf_len);

/* ---- The layout that the archive was built for ----
 * An array of a negative length stops the compiler where a size differs. */
#define OWS_SIZE_IS(name, size)                                                \
    typedef char ows_size_of_##name[sizeof(name) == (size) ? 1 : -1]
OWS_SIZE_IS(ows_u8, 1);
OWS_SIZE_IS(ows_u16, 2);
OWS_SIZE_IS(ows_u32, 4);
OWS_SIZE_IS(ows_i32, 4);
OWS_SIZE_IS(ows_u64, 8);
OWS_SIZE_IS(size_t, 8);
OWS_SIZE_IS(ows_stepped, 8);
OWS_SIZE_IS(ows_built, 8);
OWS_SIZE_IS(ows_content, 16);
OWS_SIZE_IS(ows_sampled, 4);
OWS_SIZE_IS(ows_sender, 24);
OWS_SIZE_IS(ows_started, 28);
OWS_SIZE_IS(ows_sent, 48);
OWS_SIZE_IS(ows_receiver, 80);
OWS_SIZE_IS(ows_receiver_synced, 88);
OWS_SIZE_IS(ows_fed, 104);
OWS_SIZE_IS(ows_written, 16);
OWS_SIZE_IS(ows_reading, 16);
OWS_SIZE_IS(ows_converted, 24);
#undef OWS_SIZE_IS

#ifdef __cplusplus
}
#endif

#endif
