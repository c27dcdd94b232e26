# spoiled_book.sh - books with a strip that is refused.

# bad_book PLACE NUMBER TEXT BYTES [GOOD]: a book of two good strips and these
# bytes is left as it is, with the place, the number and a text told; with a
# spoiled record too. GOOD is the number of good strips, where these bytes begin
# with one.
bad_book() {
    told="book: strip at byte $1 refused with $2 ($3)"
    for record in none spoiled; do
        rm -rf "$work/r" && mkdir "$work/r" || return 1
        printf '\000\002\005\200\002\000\000\007%b' "$4" >"$work/r/book"
        [ $record = none ] || echo spoiled >"$work/r/record"
        left_alone "$told; nothing was changed" 5 "$short" || return 1
        "$programs/show_book" "$work/r/book" >"$work/shown" 2>"$work/errors"
        [ $? -eq 1 ] && [ "$(wc -l <"$work/shown")" -eq "${5-2}" ] &&
            [ "$(cat "$work/errors")" = "$work/r/$told" ] || return 1
    done
}
cut_text='items run past the last byte'
run_text='a run of gaps past the count or after a run shorter than 256'
padding_text='a padding bit is 1'
try 'under 3 bytes' bad_book 8 9 'under 3 bytes' '\0000\0002'
try 'first three bits 001' bad_book 8 20 \
    'first three bits neither 000 nor 111' '\0040\0000\0000'
try 'first three bits 110, count above 4096' bad_book 8 20 \
    'first three bits neither 000 nor 111' '\0320\0001\0000\0000\0000'
try 'count above 4096' bad_book 8 10 'count above 4096' \
    '\0020\0001\0000\0000\0000'
try 'count above 4096, form two' bad_book 8 10 'count above 4096' \
    '\0360\0001\0000\0000\0000'
try 'items past the last byte' bad_book 8 12 "$cut_text" '\0000\0001\0000\0377'
try 'a run past the last byte' bad_book 8 12 "$cut_text" '\0340\0001\0000\0177'
try 'a run past the count' bad_book 8 21 "$run_text" '\0340\0001\0000\0000\0200'
try 'a run after a short one' bad_book 8 21 "$run_text" \
    '\0340\0002\0000\0000\0000\0000'
try 'a padding bit is 1' bad_book 8 13 "$padding_text" '\0000\0001\0000\0001'
try 'a padding bit is 1, form two' bad_book 8 13 "$padding_text" \
    '\0340\0001\0000\0000\0001'
try 'a good strip, then a bad one' bad_book 11 13 "$padding_text" \
    '\0000\0000\0011\0000\0001\0000\0001' 3
try 'a good strip of form two, then a bad one' bad_book 11 13 "$padding_text" \
    '\0340\0000\0011\0000\0001\0000\0001' 3

good_book() {
    rm -rf "$work/r" && mkdir "$work/r" &&
        printf '\000\002\005\200\002\000\000\007' >"$work/r/book" &&
        run "$work/r" "$programs/capture" "$short" &&
        tail -c +9 "$work/r/book" | cmp - "$short.run/book" &&
        [ "$("$programs/show_book" "$work/r/book" | head -n 2 | xargs)" = \
            'byte 0: lane 5, form 1, items 2, samples 1, gaps 1 byte 5: lane 7, form 1, items 0, samples 0, gaps 0' ]
}
try 'a good book of two lanes' good_book
