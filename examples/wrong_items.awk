# wrong_items.awk - compares the items of a book with the samples sent.
#
#     awk -v part=last -f wrong_items.awk SENT ITEMS
#
# SENT is what make_line writes, ITEMS what show_book -i prints. With part=last
# the samples after the last sequence are compared with the book's last items,
# one for each frame; with part=first those after the first sequence with the
# book's first items. Prints on one line:
#     frames    the frames compared
#     bursts    the longest unbroken runs of touched frames among them
#     wrong     the items that differ from the sample sent; a gap differs
#     before    the wrong ones before the first burst
#     most      the most wrong ones from a burst's first frame up to the next
#     single    the same, of the bursts of one frame
#     untouched the wrong ones of untouched frames

FNR == NR && $1 == "sequence" {
    sequences++
    if (part == "last")
        frames = 0
    next
}
FNR == NR {
    if (part == "last" || sequences == 1) {
        sample[++frames] = $2
        touched[frames] = $1 == "touched"
    }
    next
}
{ item[++items] = $1 }

END {
    skipped = part == "last" ? items - frames : 0
    for (i = 1; i <= frames; i++) {
        if (touched[i] && !touched[i - 1]) {
            bursts++
            of_burst = 0
            is_single = !touched[i + 1]
        }
        if (item[skipped + i] == sample[i])
            continue
        wrong++
        untouched += !touched[i]
        if (!bursts) {
            before++
            continue
        }
        of_burst++
        if (of_burst > most)
            most = of_burst
        if (is_single && of_burst > single)
            single = of_burst
    }
    print frames + 0, bursts + 0, wrong + 0, before + 0, most + 0, \
        single + 0, untouched + 0
}
