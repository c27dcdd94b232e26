#!/bin/sh
# The installation: installed to a folder of its own, used from outside the repository by pkg-config, and taken away.
set -u
cd "$(dirname "$0")" || exit 2
. ./report.sh

root=$(cd ../.. && pwd)
prefix=$work/prefix
outside=$work/outside
pc=$prefix/lib/pkgconfig/owsopel.pc
mkdir "$outside" || exit 2

# The program that README shows, and what it says that the program prints.
sed -n '/^```c$/,/^```$/p' "$root/README.md" | sed '1d;$d' >"$outside/first.c"
printed=$(sed -n 's/^prints `\([^`]*\)`.*/\1/p' "$root/README.md")

# files FOLDER: the files below it, by name
files() {
    (cd "$1" && find . -type f | sort)
}

# has_three FOLDER: header, archive and pkg-config file as they should be, and nothing else
has_three() {
    files "$1" >"$work/found"
    printf '%s\n' ./include/owsopel.h ./lib/libowsopel.a ./lib/pkgconfig/owsopel.pc | diff - "$work/found" &&
        cmp "$1/include/owsopel.h" "$root/include/owsopel.h" &&
        cmp "$1/lib/libowsopel.a" "$root/target/staticlib/libowsopel.a" &&
        ! grep @ "$1/lib/pkgconfig/owsopel.pc"
}

# builds_nothing: with the archive there, installing again does not make it
builds_nothing() {
    ! make -n -C "$root" install PREFIX="$prefix" | grep 'rt lib'
}

# version: the version installed is the Makefile's
version() {
    grep -x "Version: $(sed -n 's/^VERSION = //p' "$root/Makefile")" "$pc"
}

# flags: what pkg-config says of the installation; without pkg-config, what it would read in the file
flags() {
    if command -v pkg-config >"$work/command"; then
        PKG_CONFIG_PATH=$prefix/lib/pkgconfig pkg-config --cflags --libs owsopel
    else
        eval "$(grep '^[a-z]*=' "$pc")"
        eval "echo $(sed -n -e 's/^Cflags: //p' -e 's/^Libs: //p' "$pc" | tr '\n' ' ')"
    fi
}

# use COMPILER OPTIONS..: README's program built with these flags, run, and its output compared
use() {
    (cd "$outside" && "$@" -pedantic -Wall -Wextra -Werror first.c -x none $(flags) -o first) &&
        test "$("$outside/first")" = "$printed"
}

# is_empty FOLDER: no file is left
is_empty() {
    test -z "$(files "$1")"
}

command -v pkg-config >"$work/command" && by='pkg-config' || by='no pkg-config: flags read from the file'
try 'install' make -C "$root" install DESTDIR= PREFIX="$prefix"
try 'installed files' has_three "$prefix"
try 'installed version' version
try 'install again' builds_nothing
try "flags ($by)" flags
for standard in c89 c99 c11; do
    try "gcc $standard from outside" use gcc -std=$standard
done
try 'g++ c++98 from outside' use g++ -std=c++98 -x c++
try 'uninstall' make -C "$root" uninstall DESTDIR= PREFIX="$prefix"
try 'nothing left' is_empty "$prefix"

try 'install below DESTDIR' make -C "$root" install DESTDIR="$work/stage" PREFIX=/opt/owsopel
try 'files below DESTDIR' has_three "$work/stage/opt/owsopel"
try 'PREFIX without DESTDIR in the file' grep -x 'prefix=/opt/owsopel' "$work/stage/opt/owsopel/lib/pkgconfig/owsopel.pc"
try 'uninstall below DESTDIR' make -C "$root" uninstall DESTDIR="$work/stage" PREFIX=/opt/owsopel
try 'nothing left below DESTDIR' is_empty "$work/stage"

finish
