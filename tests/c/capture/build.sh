# build.sh - builds the examples, every warning an error.

flags='-pedantic -Wall -Wextra -Wshadow -Wconversion -Werror -O2 -Iinclude'
sanitizers='-fsanitize=address,undefined -fno-sanitize-recover=all -g'

# build COMPILER FOLDER FLAGS..: builds the examples to the folder.
build() {
    compiler=$1 out=$2
    shift 2
    mkdir -p "$out"
    $compiler $flags "$@" -o "$out/capture" examples/capture.c \
        examples/record_file.c examples/book_file.c examples/files.c \
        "$archive" &&
        $compiler $flags "$@" -o "$out/show_book" examples/show_book.c \
            examples/book_file.c examples/files.c "$archive" &&
        $compiler $flags "$@" -o "$out/make_line" examples/make_line.c \
            "$archive"
}

for standard in c11 c99 c89; do
    try "gcc -std=$standard" build gcc "$programs" -std=$standard
done
try 'clang -std=c89' build clang "$work/clang" -std=c89
try 'sanitizers' build gcc "$work/sanitized" -std=c89 $sanitizers
try 'static' build gcc "$work/static" -std=c89 -static
try 'pieces' gcc -std=c99 -Wall -Wextra -Werror -O2 -o "$work/pieces" \
    tests/c/capture/pieces.c
try 'mixed_book' gcc $flags -std=c89 -o "$work/mixed_book" \
    tests/c/capture/mixed_book.c "$archive"
try 'cppcheck' cppcheck --enable=warning,style,performance,portability \
    --std=c89 --error-exitcode=1 --quiet -Iinclude examples
