/* The calls on stored strips with lent buffers. */
#include "strips.h"

writing_call *const writing_calls[FORMS] = {ows_write_strip,
                                            ows_write_short_strip};
converting_call *const converting_calls[FORMS] = {ows_expand_strip,
                                                  ows_shorten_strip};

void check_write(int form, ows_u8 lane, const ows_u16 *items, size_t items_len,
                 size_t buf_len, int refusal, const ows_u8 *strip,
                 size_t bytes) {
    size_t size = items_len * sizeof *items;
    ows_u16 *given = (ows_u16 *)lend_copy(items, size);
    ows_u8 *buf = (ows_u8 *)lend(buf_len);
    ows_written written =
        writing_calls[form - 1](lane, given, items_len, buf, buf_len);
    CHECK_REFUSAL(written.refusal, refusal);
    CHECK_IS(written.bytes, bytes);
    TAKE_BACK(given, size, items, size);
    TAKE_BACK(buf, buf_len, strip, bytes);
}

static void check_reading(const ows_reading *got, const ows_reading *want) {
    CHECK_REFUSAL(got->refusal, want->refusal);
    CHECK_IS(got->lane, want->lane);
    CHECK_IS(got->count, want->count);
    CHECK_IS(got->form, want->form);
    CHECK_IS(got->used, want->used);
}

void check_read(const ows_u8 *bytes, size_t bytes_len, size_t slots_len,
                const ows_reading *want, const ows_u16 *items) {
    size_t size = slots_len * sizeof *items;
    ows_u8 *given = (ows_u8 *)lend_copy(bytes, bytes_len);
    ows_u16 *slots = (ows_u16 *)lend(size);
    ows_reading reading = ows_read_strip(given, bytes_len, slots, slots_len);
    check_reading(&reading, want);
    if (want->refusal != OWS_SLOTS_FEW) {
        reading = ows_check_strip(given, bytes_len);
        check_reading(&reading, want);
    }
    TAKE_BACK(given, bytes_len, bytes, bytes_len);
    TAKE_BACK(slots, size, items, want->count * sizeof *items);
}

void check_no_read(const ows_u8 *bytes, size_t bytes_len, size_t slots_len,
                   int refusal) {
    ows_reading want = {0, 0, 0, 0, 0};
    want.refusal = (ows_u8)refusal;
    check_read(bytes, bytes_len, slots_len, &want, NULL);
}

static void check_converted(int form, const ows_u8 *bytes, size_t bytes_len,
                            size_t buf_len, int refusal, size_t used,
                            const ows_u8 *strip, size_t written) {
    ows_u8 *given = (ows_u8 *)lend_copy(bytes, bytes_len);
    ows_u8 *buf = (ows_u8 *)lend(buf_len);
    ows_converted converted =
        converting_calls[form - 1](given, bytes_len, buf, buf_len);
    CHECK_REFUSAL(converted.refusal, refusal);
    CHECK_IS(converted.used, used);
    CHECK_IS(converted.bytes, written);
    TAKE_BACK(given, bytes_len, bytes, bytes_len);
    TAKE_BACK(buf, buf_len, strip, written);
}

void check_convert(int form, const ows_u8 *bytes, size_t bytes_len,
                   size_t buf_len, size_t used, const ows_u8 *strip,
                   size_t written) {
    check_converted(form, bytes, bytes_len, buf_len, OWS_TAKEN, used, strip,
                    written);
}

void check_no_convert(int form, const ows_u8 *bytes, size_t bytes_len,
                      size_t buf_len, int refusal) {
    check_converted(form, bytes, bytes_len, buf_len, refusal, 0, NULL, 0);
}

void check_refused_strip(const ows_u8 *bytes, size_t bytes_len, int refusal) {
    int form;
    check_no_read(bytes, bytes_len, OWS_LARGEST_COUNT, refusal);
    for (form = 1; form <= FORMS; form++) {
        check_no_convert(form, bytes, bytes_len, 0, refusal);
        check_no_convert(form, bytes, bytes_len, bytes_len + 9, refusal);
    }
}
