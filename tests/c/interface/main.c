/* Runs the checks of every subject; status 1 where one failed. */
#include "check.h"

int main(void) {
    static void (*const subjects[])(void) = {
        check_numbers,
        check_layout,
        check_frames,
        check_sending,
        check_sender_records,
        check_alignment,
        check_receiving,
        check_whole_frames,
        check_mixed,
        check_hits,
        check_sums,
        check_balance,
        check_spoiled_records,
        check_crossed,
        check_strips,
        check_two_forms,
        check_refused_strips,
        check_strip_walks,
        check_books,
        check_convention,
        check_line,
        check_refusals_met,
    };
    size_t i;
    for (i = 0; i < LENGTH(subjects); i++) {
        check_case("", 0);
        subjects[i]();
    }
    return check_failures() > 0;
}
