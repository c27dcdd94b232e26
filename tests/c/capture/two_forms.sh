# two_forms.sh - books with strips of both forms.

# By hand: lane 5 with a sample and a gap in each form, lane 7 with no items, and
# lane 9 with 4096 gaps, which are 16 runs of 256.
eight_runs='\0177\0277\0337\0357\0367\0373\0375\0376\0377'
printf '%b' '\0000\0002\0005\0200\0002' '\0340\0002\0005\0200\0002\0000' \
    '\0340\0000\0007' "\\0360\\0000\\0011$eight_runs$eight_runs" \
    '\0000\0001\0000\0377\0376' >"$work/by_hand.book"
cat >"$work/by_hand.lines" <<END
byte 0: lane 5, form 1, items 2, samples 1, gaps 1
byte 5: lane 5, form 2, items 2, samples 1, gaps 1
byte 11: lane 7, form 2, items 0, samples 0, gaps 0
byte 14: lane 9, form 2, items 4096, samples 0, gaps 4096
byte 35: lane 0, form 1, items 1, samples 1, gaps 0
END
{ printf '1\ngap\n1\ngap\n' && yes gap | head -n 4096 && echo 16383; } \
    >"$work/by_hand.items"

# shows PROGRAMS: the book's strips and items.
shows() {
    "$1/show_book" "$work/by_hand.book" | cmp - "$work/by_hand.lines" &&
        "$1/show_book" -i "$work/by_hand.book" | cmp - "$work/by_hand.items"
}
try 'a book of both forms is shown' shows "$programs"
try 'a book of both forms is shown, sanitized' shows "$work/sanitized"

# behind RECORD: a capture goes on behind that book, with no record or a spoiled
# one.
behind() {
    rm -rf "$work/r" && mkdir "$work/r" &&
        cp "$work/by_hand.book" "$work/r/book" || return 1
    [ "$1" = none ] || echo spoiled >"$work/r/record"
    strips=$("$programs/show_book" "$short.run/book" | wc -l)
    run "$work/r" "$programs/capture" "$short" &&
        cat "$work/by_hand.book" "$short.run/book" | cmp - "$work/r/book" &&
        totals "$work/r" | grep -q ", strips $((strips + 5)), "
}
try 'a capture behind a book of both forms' behind none
try 'a capture behind a book of both forms, record spoiled' behind spoiled

# in_forms FORMS LINE: the book of the line's run with its strips in these forms,
# again and again, as $work/forms.book: the same items in as many strips, but for
# the form the same lines, and in form one the same bytes.
in_forms() {
    "$work/mixed_book" "$1" <"$2.run/book" >"$work/forms.book" &&
        "$programs/show_book" -i "$work/forms.book" >"$work/forms.items" &&
        items "$2.run" | cmp - "$work/forms.items" &&
        "$programs/show_book" "$work/forms.book" >"$work/forms.lines" &&
        "$programs/show_book" "$2.run/book" | sed 's/.*: //' >"$work/lines" &&
        sed 's/.*: //; s/form 2/form 1/' "$work/forms.lines" |
        cmp - "$work/lines" &&
        strips=$(wc -l <"$work/lines") &&
        [ "$(sed 's/.*form \(.\).*/\1/' "$work/forms.lines" | tr -d '\n')" = \
            "$(yes "$1" | tr -d '\n' | head -c "$strips")" ] &&
        "$work/mixed_book" 1 <"$work/forms.book" | cmp - "$2.run/book"
}
for line in "$surge" "$connector" "$drift" "$crossed"; do
    for forms in 1 2 12 21; do
        try "$(basename "$line"), strips of forms $forms" \
            in_forms $forms "$line"
    done
done

# goes_on_behind BYTES: behind a book of both forms, a run that is stopped after
# so many bytes and taken up by its record, the book then longer than the record
# tells, ends as one that was not stopped.
goes_on_behind() {
    "$work/mixed_book" 12 <"$surge.run/book" >"$work/forms.book" &&
        rm -rf "$work/r" && mkdir "$work/r" &&
        cp "$work/forms.book" "$work/r/book" &&
        head -c "$1" "$surge" >"$work/grown" &&
        run "$work/r" "$programs/capture" "$work/grown" &&
        cp "$work/r/book" "$work/so_far" &&
        cat "$work/forms.book" >>"$work/r/book" &&
        run "$work/r" "$programs/capture" "$surge" &&
        grep -q "record: going on at byte $1 " "$work/r/report" &&
        cmp -n "$(wc -c <"$work/so_far")" "$work/so_far" "$work/r/book" &&
        { items "$surge.run" && items "$surge.run"; } >"$work/twice.items" &&
        items "$work/r" | cmp - "$work/twice.items" &&
        [ "$(totals_but_strips "$work/r")" = \
            "$(totals_but_strips "$surge.run")" ]
}
for bytes in 1 129 5001 9000; do
    try "a restart behind a book of both forms, after $bytes bytes" \
        goes_on_behind $bytes
done
