# crossed.sh - lines whose two wires are swapped, so that each byte is inverted;
# capture is not told.

# cross LINE: the line with each byte inverted, by its octal digits: no two of
# them borrow from each other where the byte is taken from 377.
cross() {
    printf "$(od -An -v -to1 -w1 "$1" | awk '{ printf "\\%03d", 377 - $1 }')"
}
by_hand() {
    printf '\000\001\012\100\177\200\376\377' >"$work/bytes"
    [ "$(cross "$work/bytes" | od -An -v -tx1 | xargs)" = \
        'ff fe f5 bf 80 7f 01 00' ]
}
try 'bytes are inverted' by_hand

# made_crossed NUMBER: make_line crosses the line of the site connector with so
# many alignment frames, and tells that the same was sent.
made_crossed() {
    cross "$work/connector.aligned.$1" | cmp - "$work/crossed.aligned.$1" &&
        cmp "$work/connector.aligned.$1.sent" "$work/crossed.aligned.$1.sent"
}
for number in 12 14 16 18 20 22 24 26 28 30 32; do
    try "$number alignment frames: the line is crossed" made_crossed $number
done

# same_crossed FOLDER FOLDER: the same book, and the same report but for its
# first line and the sums; the sums have the other sign.
same_crossed() {
    sed '1d; s/, sum .*//' "$1/report" >"$1/events"
    cmp "$1/book" "$2/book" &&
        sed '1d; s/, sum .*//' "$2/report" | cmp - "$1/events" &&
        reported "$1" | tr -d , | awk '{ print 0 - $2, 0 - $6, 0 - $4 }' \
            >"$1/sums" &&
        reported "$2" | tr -d , | awk '{ print $2, $4, $6 }' | cmp - "$1/sums"
}
# crossed_run LINE: a capture of the line crossed is that of the line.
crossed_run() {
    rm -rf "$work/p" && cross "$1" >"$work/part" &&
        run "$work/p" "$programs/capture" "$work/part" &&
        same_crossed "$work/p" "$1.run" && [ -s "$work/p/book" ]
}
for frames in 4000 1300; do
    try "crossed, $frames frames: captured like connector" \
        same_crossed "$work/crossed.$frames.run" "$work/connector.$frames.run"
    for site in surge connector drift crossed; do
        try "$site, $frames frames, crossed here" \
            crossed_run "$work/$site.$frames"
    done
done

# crossed_so_far LINE: the same after each of several runs on a line that grows.
# Each run puts its items into the book at its end.
crossed_so_far() {
    rm -rf "$work/p" "$work/r"
    cross "$1" >"$work/inverted"
    for bytes in 1 2 67 100 127 128 129 131 3000 5001 8135 9000 9001 20000; do
        head -c $bytes "$1" >"$work/grown" &&
            run "$work/r" "$programs/capture" "$work/grown" &&
            head -c $bytes "$work/inverted" >"$work/part" &&
            run "$work/p" "$programs/capture" "$work/part" &&
            same_crossed "$work/p" "$work/r" || return 1
    done
    [ -s "$work/r/book" ]
}
for line in "$surge" "$connector" "$drift"; do
    try "a crossed line that grows between runs, $(basename "$line")" \
        crossed_so_far "$line"
done
