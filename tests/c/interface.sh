#!/bin/sh
# The C interface: the C tests, built with each standard and compiler and run, and what the archive and the header hold.
# The archive must be there: make lib.
set -u
cd "$(dirname "$0")" || exit 2
. ./report.sh

header=../../include/owsopel.h
archive=../../target/staticlib/libowsopel.a
strict='-pedantic -Wall -Wextra -Werror'

# build PROGRAM COMPILER OPTIONS..: all tests as one program
build() {
    program=$work/$1
    shift
    "$@" $strict -I../../include -Wl,--fatal-warnings interface/*.c -x none $archive -o "$program"
}

# tests NAME COMPILER OPTIONS..: built and run
tests() {
    kind=$1
    shift
    try "build $kind" build program "$@"
    try "run $kind" timeout 60 "$work/program"
    rm -f "$work/program"
}

# refuses WORD COMMAND..: the command fails, and its message has the word
refuses() {
    word=$1
    shift
    ! "$@" >"$work/message" 2>&1 && grep "$word" "$work/message"
}

# same_calls: the archive exports the calls that the compiler finds in the header, and no others
same_calls() {
    gcc -std=c89 -fsyntax-only -aux-info "$work/signatures" -x c $header &&
        sed -n 's/.* \**\([a-z_0-9]*\) (.*/\1/p' "$work/signatures" | sort >"$work/declared" &&
        nm -g --defined-only $archive | awk 'NF == 3 { print $3 }' | sort >"$work/exported" &&
        test -s "$work/declared" &&
        diff "$work/declared" "$work/exported"
}

# no_symbols OPTIONS..: prints the archive's symbols of a kind, and fails if there are any
no_symbols() {
    nm "$@" $archive >"$work/symbols" &&
        awk '/ / { print; found = 1 } END { exit found }' "$work/symbols"
}

# no_writable: no section that a program could write to
no_writable() {
    size -A $archive >"$work/sections" &&
        awk '/^\.t?(data|bss)/ && $1 !~ /^\.data\.rel\.ro/ && $2 > 0 { print; found = 1 } END { exit found }' "$work/sections"
}

for compiler in gcc clang; do
    command -v $compiler >"$work/log" || continue
    for standard in c89 c99 c11; do
        try "header $compiler $standard" $compiler -std=$standard $strict -fsyntax-only -x c $header
        for level in -O0 -O2; do
            tests "$compiler $standard $level" $compiler -std=$standard $level
        done
    done
done
for compiler in g++ clang++; do
    command -v $compiler >"$work/log" || continue
    try "header $compiler c++98" $compiler -std=c++98 $strict -fsyntax-only -x c++ $header
    for level in -O0 -O2; do
        tests "$compiler c++98 $level" $compiler -std=c++98 $level -x c++
    done
done

try 'build for sanitizers' build sanitized gcc -std=c89 -O1 -g -fsanitize=address,undefined -fno-sanitize-recover=all
try 'run with sanitizers' timeout 60 "$work/sanitized"
try 'build for valgrind' build exact gcc -std=c89 -O1 -g -DGUARD_BYTES=0
try 'run with valgrind' timeout 60 valgrind --error-exitcode=9 --leak-check=full -q "$work/exact"

wraps=$(nm -g --defined-only $archive | awk 'NF == 3 { print "-Wl,--wrap=" $3 }')
for level in -O0 -O2; do
    tests "registers $level" gcc -std=c89 $level $wraps interface/registers.S
done

try 'header stops a compiler of 32 bits' refuses ows_size_of_size_t gcc -m32 -fsyntax-only -x c $header
try 'header stops packed structs' refuses ows_size_of_ows_stepped gcc -fpack-struct=1 -fsyntax-only -x c $header
try 'calls of header and archive' same_calls
try 'no undefined symbols' no_symbols -u
try 'no writable data' no_writable
try 'shared library' gcc -shared -Wl,--fatal-warnings -Wl,-z,text -Wl,-z,defs -nostdlib -Wl,--whole-archive $archive -o "$work/lib.so"

finish
