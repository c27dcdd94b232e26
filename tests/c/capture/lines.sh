# lines.sh - a line in pieces of any size, against what was sent.

# in_pieces SIZE FOLDER PROGRAM LINE: captures the line in pieces.
in_pieces() {
    rm -rf "$2" && mkdir "$2" &&
        "$work/pieces" "$1" "$4" "$3" 5 "$2/record" "$2/book" >"$2/report"
}

# like_whole FOLDER LINE: the same book, totals and places of lock as the
# undisturbed run.
like_whole() {
    same_end "$1" "$2.run" && sed 1d "$1/report" >"$1/events" &&
        sed 1d "$2.run/report" | cmp - "$1/events"
}

pieces_like_whole() { in_pieces "$@" && like_whole "$2" "$4"; }

for line in "$surge" "$connector" "$drift" "$crossed"; do
    site_line=$(basename "$line")
    for size in 1 2 3 7 255 1021 4096 0; do
        try "$site_line in pieces of $size" \
            pieces_like_whole $size "$work/p" "$programs/capture" "$line"
    done
    try "$site_line in pieces, sanitized" \
        pieces_like_whole 13 "$work/p" "$work/sanitized/capture" "$line"
done

piped() {
    rm -rf "$work/p"
    cat "$surge" | run "$work/p" "$programs/capture" &&
        like_whole "$work/p" "$surge"
}
redirected() {
    rm -rf "$work/p"
    run "$work/p" "$programs/capture" <"$surge" && like_whole "$work/p" "$surge"
}
try 'a pipe' piped
try 'standard input is a file' redirected

# under_valgrind LINE: no error and no leak, in odd pieces.
under_valgrind() {
    rm -rf "$work/p" && mkdir "$work/p" &&
        "$work/pieces" 97 "$1" "$(command -v valgrind)" -q \
            --error-exitcode=9 --leak-check=full "$programs/capture" 5 \
            "$work/p/record" "$work/p/book" >"$work/p/report" &&
        like_whole "$work/p" "$1"
}
try 'valgrind' under_valgrind "$short"

# What was sent. The columns are those of wrong_items.awk.
# counted: an example with wrong items before the first burst, of a burst of one
# frame and of a burst of two.
counted() {
    printf '%s\n' 'sequence 127' 'sample 1' 'sample 2' 'touched 3' 'sample 4' \
        'sample 5' 'touched 6' 'touched 7' 'sample 8' >"$work/by_hand.sent"
    printf '%s\n' gap 2 gap 4 gap 0 gap 0 >"$work/by_hand.items"
    awk -v part=first -f examples/wrong_items.awk "$work/by_hand.sent" \
        "$work/by_hand.items" | grep -x '8 2 6 1 3 2 3'
}
try 'wrong items are counted' counted
# spaced LINE LONGEST: there are bursts of one and of LONGEST touched frames and
# no longer ones, and at the closest five untouched frames between two.
spaced() {
    sed 's/^sequence.*/ /; s/^sample.*/./; s/^touched.*/x/' "$1.sent" |
        tr -d '\n' | tr ' ' '\n' >"$work/touched"
    grep -q '\.x\.' "$work/touched" && grep -Eq "\.x{$2}\." "$work/touched" &&
        grep -Eq 'x\.{5}x' "$work/touched" &&
        ! grep -E "x{$2}x|x\.{1,4}x" "$work/touched"
}
try 'connector: bursts of one or two frames, five untouched between' \
    spaced "$connector" 2
try 'drift: single touched frames, five untouched between' spaced "$drift" 1

none_wrong() { [ "$(wrong "$1.run" "$1" "$2")" = "$3 0 0 0 0 0 0" ]; }
few_wrong() {
    wrong "$1.run" "$1" "$2" >"$work/few"
    cat "$work/few"
    read -r compared bursts all before most single untouched <"$work/few"
    [ "$compared" -eq "$3" ] && [ "$bursts" -ge 20 ] && [ "$all" -gt 0 ] &&
        [ "$before" -eq 0 ] && [ "$most" -le 2 ] && [ "$single" -le 1 ] &&
        [ "$untouched" -eq 0 ]
}
# each_wrong LINE FRAMES: those of the touched frames are wrong, and no other.
each_wrong() {
    touched=$(grep -c '^touched' "$1.sent")
    [ "$touched" -ge 20 ] &&
        [ "$(wrong "$1.run" "$1" last)" = "$2 $touched $touched 0 1 1 0" ]
}
# lock_at LINE: lock found in the last byte of each sequence.
lock_at() {
    sed -n 's/^lock found at byte //p' "$1.run/report" >"$work/found"
    sed -n 's/^sequence //p' "$1.sent" | cmp - "$work/found"
}
for frames in 4000 1300; do
    try "surge, $frames frames: samples before the surge" \
        none_wrong "$work/surge.$frames" first $frames
    try "surge, $frames frames: samples after the sequence" \
        none_wrong "$work/surge.$frames" last $frames
    for part in first last; do
        for site in connector crossed; do
            try "$site, $frames frames: wrong items, $part sequence" \
                few_wrong "$work/$site.$frames" $part $frames
        done
    done
    for site in surge connector drift crossed; do
        try "$site, $frames frames: lock" lock_at "$work/$site.$frames"
    done
    try "drift, $frames frames: a wrong item for each touched frame" \
        each_wrong "$work/drift.$frames" $frames
done
# lost_at LINE FRAMES: lock lost in the last byte of the first frame with which
# four of the last eight items are gaps. It gave the last item before the second
# sequence; the first frame comes after the first sequence.
lost_at() {
    sequence=$(sed -n '1s/^sequence //p' "$1.sent")
    before=$(($(items "$1.run" | wc -l) - $2))
    fourth=$(items "$1.run" | awk '
        { gap[NR] = $1 == "gap"; gaps += gap[NR] - gap[NR - 8] }
        gaps == 4 && !first { first = NR }
        END { print first + 0 }')
    [ "$fourth" -eq $before ] && [ "$(grep '^lock lost' "$1.run/report")" = \
        "lock lost at byte $((sequence + 2 * before))" ]
}
try 'surge, 4000 frames: lock lost with the fourth fault' lost_at "$surge" 4000
try 'surge, 1300 frames: lock lost with the fourth fault' lost_at "$short" 1300
try 'connector, 4000 frames: lock lost with the fourth fault' \
    lost_at "$connector" 4000
try 'crossed, 4000 frames: lock lost with the fourth fault' \
    lost_at "$crossed" 4000

# totals_fit LINE: the totals are the counts of the book's items.
totals_fit() {
    items "$1.run" >"$work/items"
    gaps=$(grep -c '^gap$' "$work/items")
    samples=$(grep -vc '^gap$' "$work/items")
    losses=$(grep -c '^lock lost' "$1.run/report")
    totals "$1.run" | grep -q "^bytes $(wc -c <"$1"), samples $samples, \
gaps $gaps, losses $losses, strips .*, mode Locked, sum "
}
try 'surge: totals are the counts of items' totals_fit "$surge"
try 'connector: totals are the counts of items' totals_fit "$connector"
try 'drift: totals are the counts of items' totals_fit "$drift"
try 'crossed: totals are the counts of items' totals_fit "$crossed"
