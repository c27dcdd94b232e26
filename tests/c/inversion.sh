#!/bin/sh
# No branch depends on the disparity bit: reading and building frames, feeding and sending run the same instructions, each as
# often, whether none, half or all of the frames are inverted. callgrind counts every instruction; no time is measured.
# The archive must be there: make lib.
set -u
cd "$(dirname "$0")" || exit 2
. ./report.sh

archive=../../target/staticlib/libowsopel.a
frames=4096

# build: without optimization, for inversion/read_by_branch.c
build() {
    gcc -std=c89 -O0 -pedantic -Wall -Wextra -Werror -DFRAMES=$frames -I../../include -Iinterface -Wl,--fatal-warnings \
        inversion/*.c interface/check.c interface/rules.c $archive -o "$work/program"
}

# instructions: of callgrind's file, a line for each instruction: its address, how often it ran, how often as a conditional
# branch, its function. What follows 'calls=' is the sum of a called function.
instructions() {
    awk '
        /^positions:/ { places = NF - 1 }
        /^events:/ { for (i = 2; i <= NF; i++) column[$i] = places + i - 1; known = ("Ir" in column) && ("Bc" in column) }
        /^fn=/ { name = substr($0, 4) }
        /^calls=/ { getline; next }
        /^0x/ { print $1, $column["Ir"] + 0, $column["Bc"] + 0, name }
        END { exit !known }'
}

# count LIST KIND: runs a list and keeps the instructions of its call alone, sorted, since callgrind's order of functions varies;
# a list is named by its call, and more after a colon
count() {
    timeout 60 valgrind -q --tool=callgrind --branch-sim=yes --dump-instr=yes --compress-strings=no --compress-pos=no \
        --toggle-collect="${1%:*}" --callgrind-out-file="$work/profile" "$work/program" "$1" "$2" &&
        instructions <"$work/profile" >"$work/list" &&
        sort "$work/list" >"$work/$1.$2"
}

# ran LIST KIND, branches LIST KIND: the sums
ran() { awk '{ sum += $2 } END { print sum + 0 }' <"$work/$1.$2"; }
branches() { awk '{ sum += $3 } END { print sum + 0 }' <"$work/$1.$2"; }

# sums LIST: those of each kind
sums() {
    echo "inversion: $1 with none, half, all inverted:" \
        "$(ran "$1" none) $(ran "$1" half) $(ran "$1" all) instructions," \
        "$(branches "$1" none) $(branches "$1" half) $(branches "$1" all) conditional branches"
}

# same LIST: each instruction as often in every kind, and no fewer of them than frames
same() {
    sums "$1"
    [ "$(ran "$1" none)" -ge $frames ] &&
        diff "$work/$1.none" "$work/$1.half" &&
        diff "$work/$1.none" "$work/$1.all"
}

# differs LIST: another number of instructions where all are inverted
differs() {
    sums "$1"
    [ "$(ran "$1" none)" -ne "$(ran "$1" all)" ]
}

# fewer: by whole frames, a fifth of the instructions of feeding bit by bit at most, on the same line
fewer() {
    [ $((5 * $(ran ows_feed_frames none))) -le "$(ran ows_feed none)" ]
}

try 'build' build
lists='ows_read ows_read_sample ows_build ows_feed ows_feed:sums ows_feed_frames ows_feed_frames:sums ows_send'
for list in $lists read_by_branch; do
    for kind in none half all; do
        try "$list, $kind inverted" count "$list" "$kind"
    done
done
for list in $lists; do
    try "$list runs the same instructions" same "$list"
done
try 'a branch on the disparity bit is seen' differs read_by_branch
try 'feeding by whole frames runs fewer instructions' fewer

for list in $lists read_by_branch; do
    sums "$list"
done
finish
