# arguments.sh - arguments that are refused with exit status 2.

# usage ARGUMENTS..: capture ends with 2, tells its usage, makes no file.
usage() {
    mkdir -p "$work/usage"
    "$programs/capture" "$@" <"$short" >"$work/usage.out" 2>&1
    [ $? -eq 2 ] && grep -q '^usage: capture' "$work/usage.out" &&
        [ -z "$(ls "$work/usage")" ]
}

at=$work/usage
for lane in 256 1000 99999999999999999999 -1 +1 '' ' 1' 1x x 0x1 1.0; do
    try "lane '$lane' refused" usage "$lane" "$at/record" "$at/book"
done
try 'no arguments' usage
try 'too few arguments' usage 1 "$at/record"
try 'too many arguments' usage 1 "$at/record" "$at/book" "$short" x
try 'record and book the same' usage 1 "$at/one" "$at/one" "$short"

# lane_taken LANE: the lane is taken, and is in the strip.
lane_taken() {
    rm -rf "$work/lane" && mkdir "$work/lane" &&
        "$programs/capture" "$1" "$work/lane/record" "$work/lane/book" \
            "$short" && "$programs/show_book" "$work/lane/book" |
        grep -q "^byte 0: lane $1, form 1, items 1024, "
}
for lane in 0 7 255; do
    try "lane $lane taken" lane_taken $lane
done

# ends STATUS TEXT COMMAND..: the exit status and a text among the errors.
ends() {
    status=$1 text=$2
    shift 2
    "$@" </dev/null >"$work/out" 2>"$work/errors"
    found=$?
    cat "$work/errors"
    [ $found -eq "$status" ] && grep -qF -e "$text" "$work/errors"
}

try 'no such line' ends 2 'open: No such file' \
    "$programs/capture" 1 "$at/record" "$at/book" "$at/line"
try 'no such folder' ends 2 'open: No such file' \
    "$programs/capture" 1 "$at/record" "$at/none/book" "$short"
try 'book is a device' ends 1 'is no regular file' \
    "$programs/capture" 1 "$at/record" /dev/full "$short"
try 'record is a device' ends 1 'is no regular file' \
    "$programs/capture" 1 /dev/full "$at/book" "$short"
try 'record is a folder' ends 1 'is no regular file' \
    "$programs/capture" 1 "$work" "$at/book" "$short"
# closed NUMBER: a standard stream is closed: ends with 2.
closed() {
    case $1 in
    0) "$programs/capture" 1 "$at/record" "$at/book" "$short" <&- ;;
    1) "$programs/capture" 1 "$at/record" "$at/book" "$short" >&- ;;
    2) "$programs/capture" 1 "$at/record" "$at/book" "$short" 2>&- ;;
    esac
    [ $? -eq 2 ]
}
for stream in 0 1 2; do
    try "standard stream $stream closed" closed $stream
done
try 'no file was made' [ -z "$(ls "$at")" ]
try 'show_book: no such book' ends 2 'open: No such file' \
    "$programs/show_book" "$at/book"
try 'show_book: usage' ends 2 'usage: show_book' "$programs/show_book"

# no_line TEXT ARGUMENTS..: make_line ends with 2 and a text among the errors,
# writes nothing, and makes no file.
no_line() {
    text=$1
    shift
    ends 2 "$text" "$programs/make_line" "$@" && [ ! -s "$work/out" ] &&
        [ -z "$(ls "$at")" ]
}
try 'make_line: usage' no_line 'usage: make_line' flood
try 'make_line: no arguments' no_line 'usage: make_line'
try 'make_line: no such site' no_line 'usage: make_line' flood 1 9 "$at/sent"
try 'make_line: sites by part of a name' no_line 'usage: make_line' \
    drif 1 9 "$at/sent"
try 'make_line: crossed by part of its name' no_line 'usage: make_line' \
    cross 1 9 "$at/sent"
try 'make_line: no name of a site' no_line 'usage: make_line' '' 1 9 "$at/sent"
try 'make_line: too few arguments' no_line 'usage: make_line' surge 1 9
try 'make_line: too few arguments, drift' no_line 'usage: make_line' drift 1 9
try 'make_line: too many arguments' no_line 'usage: make_line' \
    surge 1 9 "$at/sent" 12 12
try 'make_line: drift, 13 alignment frames refused' no_line \
    'make_line: 13 alignment frames: refused with 19' drift 1 9 "$at/sent" 13
try 'make_line: crossed, 13 alignment frames refused' no_line \
    'make_line: 13 alignment frames: refused with 19' crossed 1 9 "$at/sent" 13
for number in '' ' ' x 12x -12 +12 ' 12' '12 ' 0x14 12.0 1e1; do
    try "make_line: '$number' is no number" no_line 'usage: make_line' \
        surge 1 9 "$at/sent" "$number"
done
# The last two have 12 as their low 32 and 64 bits.
for number in 0 1 2 10 11 13 15 31 33 34 64 268 65548 4294967295 \
    99999999999999999999 4294967308 18446744073709551628; do
    try "make_line: $number alignment frames refused" no_line \
        "make_line: $number alignment frames: refused with 19" \
        connector 1 9 "$at/sent" "$number"
done
