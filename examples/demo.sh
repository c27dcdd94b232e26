#!/bin/sh
# demo.sh - runs the lines of four sites through capture and prints a table.
#
#     demo.sh PROGRAMS FOLDER [ALIGNMENT]
#
# PROGRAMS holds capture, show_book and make_line; the demo's files are written
# to FOLDER, which is emptied first. ALIGNMENT is the number of alignment frames
# in each sequence; unless given, sites 1 and 3 have 32 and site 2, a slow lane,
# has 12, and so has site 4, which is site 2 with its two wires swapped. capture
# is told neither. Every number is read from what the programs wrote. The exit
# status is 1 where a promise is not kept, site 3 does not drift or site 4 is not
# crossed; where a program fails, as make_line does with a number that is
# refused, it is the program's.
set -eu
programs=$1
folder=$2
awk_program=$(dirname "$0")/wrong_items.awk
frames=20000
broken=0
rm -rf "$folder"
mkdir -p "$folder"

# run SITE SEED ALIGNMENT: makes the site's line and captures it.
run() {
    "$programs/make_line" "$1" "$2" $frames "$folder/$1.sent" "$3" \
        >"$folder/$1.line"
    "$programs/capture" 0 "$folder/$1.record" "$folder/$1.book" \
        "$folder/$1.line" >"$folder/$1.report"
    "$programs/show_book" -i "$folder/$1.book" >"$folder/$1.items"
    for part in first last; do
        awk -v part=$part -f "$awk_program" "$folder/$1.sent" \
            "$folder/$1.items" >"$folder/$1.$part"
    done
}

# of SITE NAME: a number of the report's last line.
of() { sed -n "s/^bytes.*/, &,/; s/.*, *$2 \([^,]*\),.*/\1/p" "$folder/$1.report"; }

# places SITE found|lost: the bytes where lock was found or lost.
places() {
    sed -n "s/^lock $2 at byte //p" "$folder/$1.report" | xargs
}

# alignment SITE: the alignment frames that the line begins with, inverted or
# not.
alignment() {
    od -An -v -tx2 -w4 -N128 "$folder/$1.line" | uniq -c |
        awk 'NR == 1 && $2 $3 ~ /^(ff0000ff|00ffff00)$/ { print 2 * $1 }'
}

# sequences SITE: the bytes that hold the last bit of a sequence.
sequences() { sed -n 's/^sequence //p' "$folder/$1.sent" | xargs; }

# compared SITE first|last COLUMN: a number that wrong_items.awk printed.
compared() { awk -v column="$3" '{ print $column }' "$folder/$1.$2"; }

# apart SITE: the highest minus the lowest sum.
apart() { echo $(($(of "$1" highest) - $(of "$1" lowest))); }

# items SITE: the items of the book.
items() { wc -l <"$folder/$1.items"; }

# bytes SITE: the bytes of the line.
bytes() { wc -c <"$folder/$1.line"; }

# inverted SITE SITE: the bytes of a line that the other line has inverted, at
# the same place. cmp prints them in octal, and a byte and its inversion have
# digits that add up to 3, 7 and 7.
inverted() {
    cmp -l "$folder/$1.line" "$folder/$2.line" |
        awk '$2 + $3 == 377 { bytes++ } END { print bytes + 0 }'
}

# same SITE SITE: whether the books are the same, byte for byte.
same() { cmp "$folder/$1.book" "$folder/$2.book" >&2 && echo yes || echo no; }

# came_out SITE: the totals, and the bytes where lock was found and lost.
came_out() {
    echo "$(of "$1" samples) $(of "$1" gaps) $(of "$1" losses)," \
        "$(places "$1" found), $(places "$1" lost)"
}

# row NAME VALUE VALUE VALUE VALUE: a line of the table.
row() {
    printf '%-33s %14s %18s %14s %16s\n' "$1" "${2:-none}" "${3:-none}" \
        "${4:-none}" "${5:-none}"
}

# tell WORD NAME CONDITION..: says the word where the condition holds.
tell() {
    word=$1 name=$2
    shift 2
    if [ "$@" ]; then
        echo "$word: $name"
    else
        echo "BROKEN: $name"
        broken=1
    fi
}

# promise NAME CONDITION..: tests a promise and says whether it is kept.
promise() { tell kept "$@"; }

# seen NAME CONDITION..: the same for what the site is there to show.
seen() { tell seen "$@"; }

# each NAME FUNCTION ARGUMENTS: a line of the table, by a function of the site.
# ARGUMENTS are words.
each() {
    row "$1" "$($2 surge $3)" "$($2 connector $3)" "$($2 drift $3)" \
        "$($2 crossed $3)"
}

run surge 1 "${3-32}"
run connector 2 "${3-12}"
run drift 3 "${3-32}"
run crossed 2 "${3-12}"

row '' 'site 1: surge' 'site 2: connector' 'site 3: drift' 'site 4: crossed'
each 'alignment frames of a sequence' alignment ''
each 'bytes of the line' of bytes
each 'sequence ends in byte' sequences ''
each 'lock found in byte' places found
each 'lock lost in byte' places lost
each 'samples' of samples
each 'gaps' of gaps
each 'losses' of losses
each 'strips in the book' of strips
each 'mode at the end' of mode
each 'lowest sum since lock' of lowest
each 'highest sum since lock' of highest
echo 'After the last sequence:'
each '  frames' compared 'last 1'
each '  bursts of touched frames' compared 'last 2'
each '  wrong items' compared 'last 3'
each '  most wrong items of one burst' compared 'last 5'
each '  most of a burst of one frame' compared 'last 6'
each '  wrong items of untouched frames' compared 'last 7'
echo

promise 'site 1: no item is wrong before the surge' \
    "$(compared surge first 1) $(compared surge first 3)" = "$frames 0"
promise 'site 1: lock is found with the last bit of each sequence' \
    "$(places surge found)" = "$(sequences surge)"
promise 'site 1: no item is wrong after the sequence' \
    "$(compared surge last 1) $(compared surge last 3)" = "$frames 0"
promise 'site 1: highest minus lowest sum is at most 32' "$(apart surge)" -le 32
promise 'site 2: lock is found with the last bit of each sequence' \
    "$(places connector found)" = "$(sequences connector)"
promise 'site 2: lock is lost once, and there is one item for each later frame' \
    "$(of connector losses) $(of connector mode) \
$(compared connector first 1) $(compared connector last 1)" = \
    "1 Locked $frames $frames"
for part in first last; do
    promise "site 2, $part sequence: no item is wrong before the first burst" \
        "$(compared connector $part 4)" -eq 0
    promise "site 2, $part sequence: at most two items are wrong of a burst" \
        "$(compared connector $part 5)" -le 2
    promise "site 2, $part sequence: a burst of one frame costs at most one item" \
        "$(compared connector $part 6)" -le 1
    promise "site 2, $part sequence: an untouched frame gives its sample" \
        "$(compared connector $part 7)" -eq 0
done
promise 'site 3: lock is found with the last bit of the sequence' \
    "$(places drift found)" = "$(sequences drift)"
promise 'site 3: a touched frame costs at most one item' \
    "$(compared drift last 5)" -le 1
promise 'site 3: an untouched frame gives its sample' \
    "$(compared drift last 7)" -eq 0
seen 'site 3: highest minus lowest sum is above 32, and lock is never lost' \
    "$(($(apart drift) > 32)) $(of drift losses) $(of drift mode) \
$(items drift)" = "1 0 Locked $frames"
promise 'site 4: the book is that of site 2, byte for byte' \
    "$(same connector crossed)" = yes
promise 'site 4: totals and places of lock are those of site 2' \
    "$(came_out crossed)" = "$(came_out connector)"
seen 'site 4: the line is that of site 2 with every byte inverted' \
    "$(inverted connector crossed) $(bytes crossed)" = \
    "$(bytes connector) $(bytes connector)"
seen 'site 4: the sums are those of site 2 with the other sign' \
    "$(of crossed lowest) $(of crossed highest)" = \
    "$((0 - $(of connector highest))) $((0 - $(of connector lowest)))"
exit $broken
