# by_bits.sh - capture feeds by whole frames. One that feeds bit by bit
# writes the same files and prints the same, and either takes up what the other
# left.

by_bits=$work/by_bits/capture
by_frames=$programs/capture
try 'a capture that feeds bit by bit' \
    build gcc "$work/by_bits" -std=c89 -Dows_feed_frames=ows_feed

# same_files SIZE LINE: in pieces, book, record and output byte for byte.
same_files() {
    in_pieces "$1" "$work/p" "$by_bits" "$2" && rm -rf "$work/q" &&
        mv "$work/p" "$work/q" && in_pieces "$1" "$work/p" "$by_frames" "$2" &&
        cmp "$work/p/book" "$work/q/book" &&
        cmp "$work/p/record" "$work/q/record" &&
        cmp "$work/p/report" "$work/q/report"
}

# taken_up BYTES PROGRAM PROGRAM LINE: the first bytes captured by the one, the
# rest of the line by the other.
taken_up() {
    rm -rf "$work/p" && head -c "$1" "$4" >"$work/grown" &&
        run "$work/p" "$2" "$work/grown" && run "$work/p" "$3" "$4" &&
        same_items "$work/p" "$4.run"
}

for line in "$surge" "$connector" "$drift" "$crossed"; do
    site_line=$(basename "$line")
    for size in 1 3 255 4096 0; do
        try "$site_line bit by bit, in pieces of $size" same_files $size "$line"
    done
    for bytes in 50 1001 8192; do
        try "$site_line: $bytes bytes bit by bit, then by whole frames" \
            taken_up $bytes "$by_bits" "$by_frames" "$line"
        try "$site_line: $bytes bytes by whole frames, then bit by bit" \
            taken_up $bytes "$by_frames" "$by_bits" "$line"
    done
done
