#!/bin/sh
# Where a linker puts the calls that feed: the ns per bit of ows_feed and of ows_feed_frames at 0, 16, 32 and 48 modulo 64, least
# of 41 times, as a table. It is no test, but fails where the two calls do not give the same. The archive must be there: make lib.
set -eu
cd "$(dirname "$0")" || exit 2
work=$(mktemp -d) || exit 2
trap 'rm -rf "$work"' EXIT
trap 'exit 2' INT TERM

# The archive has each call at a multiple of 64.
objcopy --set-section-alignment '.text.ows_feed=16' --set-section-alignment '.text.ows_feed_frames=16' \
    ../../target/staticlib/libowsopel.a "$work/libowsopel.a"

printf '%-16s%30s%30s\n' 'place modulo 64' 'ns per bit, noise' 'ns per bit, locked line'
printf '%8s%8s%14s%8s%8s%14s%8s%8s\n' feed frames feed frames feed feed frames feed
printf '%46s%30s\n' /frames /frames
for place in 0 16 32 48; do
    gcc -std=c89 -pedantic -Wall -Wextra -Werror -O2 -I../../include -Iinterface -Wl,--fatal-warnings \
        "-Wl,--defsym=PLACE=$place" -Wl,-T,placement/place.ld \
        placement/main.c interface/check.c interface/rules.c "$work/libowsopel.a" -o "$work/program"
    "$work/program" "$place"
done
