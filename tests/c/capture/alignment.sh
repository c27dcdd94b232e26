# alignment.sh - lines with every permitted number of alignment frames, which
# capture is not told.

# begins SITE LINE NUMBER: the line begins with so many alignment frames, in
# pairs, and a frame of sample 0; all of them are inverted at the site crossed.
# The first sequence ends 32 frames after them.
begins() {
    case $1 in
    crossed) pair='00ff ff00' next=fffe ;;
    *) pair='ff00 00ff' next=0001 ;;
    esac
    od -An -v -tx2 -w4 -N$((2 * $3 + 2)) "$2" | uniq -c | xargs |
        grep -qx "$(($3 / 2)) $pair 1 $next" &&
        sed 1q "$2.sent" | grep -qx "sequence $((2 * $3 + 63))"
}

# sent LINE: the samples and which frames were touched.
sent() { grep -v '^sequence' "$1.sent"; }

# aligned SITE NUMBER: the site's short line with so many alignment frames. But
# for the sequences it is the one with 32, and so the book is the same.
aligned() {
    line=$work/$1.aligned.$2
    "$programs/make_line" "$1" 1300 1300 "$line.sent" "$2" >"$line" &&
        begins "$1" "$line" "$2" &&
        sent "$line" >"$line.samples" &&
        sent "$work/$1.1300" | cmp - "$line.samples" &&
        run "$line.run" "$programs/capture" "$line" &&
        lock_at "$line" && totals_fit "$line" &&
        { [ "$1" = drift ] || lost_at "$line" 1300; } &&
        cmp "$line.run/book" "$work/$1.1300.run/book"
}
for number in 12 14 16 18 20 22 24 26 28 30 32; do
    for site in surge connector drift crossed; do
        try "$site, $number alignment frames" aligned $site $number
    done
done

try 'no number of alignment frames: 32' cmp "$work/surge.aligned.32" "$short"

# sanitized SITE NUMBER: the sanitized make_line makes the same line.
sanitized() {
    "$work/sanitized/make_line" "$1" 1300 1300 "$work/p.sent" "$2" |
        cmp - "$work/$1.aligned.$2"
}
for number in 12 32; do
    for site in connector drift crossed; do
        try "$site, $number alignment frames, sanitized" \
            sanitized $site $number
    done
done
for size in 1 7 0; do
    try "12 alignment frames in pieces of $size" pieces_like_whole $size \
        "$work/p" "$programs/capture" "$work/surge.aligned.12"
done
