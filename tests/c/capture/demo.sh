# demo.sh - the demo: its promises, its table, its numbers of alignment frames.

# demo STATUS [ALIGNMENT]: runs the demo, which ends with this status. Its
# programs are in $demo_programs.
demo_programs=$programs
demo() {
    status=$1
    shift
    examples/demo.sh "$demo_programs" "$work/demo" "$@" >"$work/table" \
        2>"$work/errors"
    found=$?
    cat "$work/table" "$work/errors"
    [ $found -eq "$status" ]
}

# keeps NUMBERS [ALIGNMENT]: the demo keeps its promises, and its table tells
# the numbers of alignment frames of the four sites.
keeps() {
    numbers=$1
    shift
    demo 0 "$@" && sed -n 's/^alignment frames of a sequence//p' \
        "$work/table" | xargs | grep -qx "$numbers"
}
# reports NAME TEXT: the table tells of each site what capture reported.
reports() {
    for site in surge connector drift crossed; do
        tail -n 1 "$work/demo/$site.report" |
            sed -n "s/.*, $1 \([^,]*\).*/\1/p"
    done | xargs | grep -qx -e "$(sed -n "s/^$2 *//p" "$work/table" | xargs)"
}
# shown: README shows the demo's table.
shown() {
    sed -n '/site 1: surge/,/^```$/p' README.md | sed '$d' >"$work/shown"
    head -n "$(wc -l <"$work/shown")" "$work/table" | cmp - "$work/shown"
}
try 'the demo keeps its promises' keeps '32 12 32 12'
try 'the demo tells the lowest sums' reports lowest 'lowest sum since lock'
try 'the demo tells the highest sums' reports highest 'highest sum since lock'
try 'the table has at most 100 columns' \
    [ "$(wc -L <"$work/table")" -le 100 ]
try 'README shows the table of the demo' shown
try 'the demo with 12 alignment frames keeps its promises' \
    keeps '12 12 12 12' 12

refused() {
    demo 2 11 && [ ! -s "$work/table" ] && grep -qx \
        'make_line: 11 alignment frames: refused with 19' "$work/errors"
}
try 'the demo with 11 alignment frames is refused' refused

# instead SITE OTHER [BYTES]: programs for the demo in which the line of a site
# is that of another one, or only its last so many bytes are.
instead() {
    demo_programs=$work/instead
    rm -rf "$demo_programs" && mkdir "$demo_programs" &&
        ln -s "$programs/capture" "$programs/show_book" "$demo_programs"
    cat >"$demo_programs/make_line" <<END
#!/bin/sh
[ "\$1" = $1 ] || exec "$programs/make_line" "\$@"
shift
[ -n "${3-}" ] || exec "$programs/make_line" $2 "\$@"
"$programs/make_line" $1 "\$@" | head -c -${3-0}
"$programs/make_line" $2 "\$@" | tail -c ${3-0}
END
    chmod +x "$demo_programs/make_line"
}
# broken 'SITE OTHER [BYTES]' TEXT..: then these lines are broken, and the exit
# status 1.
broken() {
    instead $1 && demo 1 || return 1
    shift
    for text in "$@"; do
        grep -qx "BROKEN: $text" "$work/table" || return 1
    done
}
# only_broken: the same, and no other line is broken.
only_broken() {
    broken "$@" && [ "$(grep -c '^BROKEN' "$work/table")" -eq $(($# - 1)) ]
}
try 'the demo sees that site 3 does not drift' broken 'drift surge' \
    'site 3: highest minus lowest sum is above 32, and lock is never lost'
try 'the demo sees that site 1 drifts' broken 'surge drift' \
    'site 1: highest minus lowest sum is at most 32'
same_book='site 4: the book is that of site 2, byte for byte'
same_totals='site 4: totals and places of lock are those of site 2'
is_crossed='site 4: the line is that of site 2 with every byte inverted'
other_sign='site 4: the sums are those of site 2 with the other sign'
try 'the demo sees that site 4 is another site' only_broken 'crossed surge' \
    "$same_book" "$same_totals" "$is_crossed" "$other_sign"
try 'the demo sees that site 4 is not crossed' \
    only_broken 'crossed connector' "$is_crossed" "$other_sign"
try 'the demo sees that the last byte of site 4 is not inverted' \
    only_broken 'crossed connector 1' "$same_book" "$is_crossed"
try 'the demo sees that site 2 is another site' broken 'connector drift' \
    "$same_book" "$same_totals" "$is_crossed" "$other_sign"
