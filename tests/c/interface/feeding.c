/* Feeding through both calls, bit by bit and by whole frames. */
#include "check.h"

feeding_call *const feeding_calls[FEEDS] = {ows_feed, ows_feed_frames};

/* The call whose turn it is gets the caller's buffers, the other lent ones. */
ows_fed feed_by_both(ows_receiver receiver, const ows_u8 *bytes,
                     size_t bytes_len, ows_u16 *slots, size_t slots_len) {
    static int turn = 0;
    size_t size = slots_len * sizeof *slots;
    ows_u8 *lent_bytes = (ows_u8 *)lend_copy(bytes, bytes_len);
    ows_u16 *lent_slots = (ows_u16 *)lend(size);
    ows_fed fed =
        feeding_calls[turn](receiver, bytes, bytes_len, slots, slots_len);
    ows_fed other = feeding_calls[1 - turn](receiver, lent_bytes, bytes_len,
                                            lent_slots, slots_len);
    turn = 1 - turn;
    CHECK_IS(other.refusal, fed.refusal);
    CHECK_RECEIVER(other.receiver, fed.receiver);
    CHECK_IS(other.bytes, fed.bytes);
    CHECK_IS(other.slots, fed.slots);
    CHECK(fed.bytes <= bytes_len && fed.slots <= slots_len);
    TAKE_BACK(lent_bytes, bytes_len, bytes, bytes_len);
    TAKE_BACK(lent_slots, size, slots,
              fed.slots <= slots_len ? fed.slots * sizeof *slots : 0);
    return fed;
}

size_t feed_whole(ows_receiver *receiver, const ows_u8 *bytes, size_t length,
                  ows_u16 *items) {
    ows_fed fed = feed_by_both(*receiver, bytes, length, items, length);
    CHECK_REFUSAL(fed.refusal, OWS_TAKEN);
    CHECK_IS(fed.bytes, length);
    *receiver = fed.receiver;
    return fed.slots;
}

ows_receiver check_feed(const ows_receiver *receiver, const ows_u8 *bytes,
                        size_t used, size_t bytes_len, const ows_u16 *items,
                        size_t count, size_t slots_len) {
    size_t size = slots_len * sizeof(ows_u16);
    ows_u8 *line = (ows_u8 *)lend_copy(bytes, bytes_len);
    ows_u16 *slots = (ows_u16 *)lend(size);
    ows_fed fed = feed_by_both(*receiver, line, bytes_len, slots, slots_len);
    CHECK_REFUSAL(fed.refusal, OWS_TAKEN);
    CHECK_IS(fed.bytes, used);
    CHECK_IS(fed.slots, count);
    TAKE_BACK(line, bytes_len, bytes, bytes_len);
    TAKE_BACK(slots, size, items, count * sizeof *items);
    return fed.receiver;
}
