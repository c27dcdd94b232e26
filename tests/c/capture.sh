#!/bin/sh
# The tests of the C programs in examples. The archive must be there: make lib.
# The tests' files are kept in memory where there is /dev/shm: fsync costs nothing there, and a killed process leaves the same
# files.
set -u
cd "$(dirname "$0")/../.." || exit 2
export LC_ALL=C
[ -w /dev/shm ] && home=/dev/shm
. tests/c/report.sh

examples=$PWD/examples
archive=$PWD/target/staticlib/libowsopel.a
programs=$PWD/target/examples

for subject in build runs arguments lines by_bits sums alignment crossed demo restarts spoiled_record spoiled_book two_forms killed versions order failing; do
    . tests/c/capture/$subject.sh
done

finish
