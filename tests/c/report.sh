# For the test scripts of this folder, which read it: tries that are counted.
# A script that sets `home` has its files there.
passed=0 failed=0
work=$(mktemp -d "${home:-/tmp}/owsopel.XXXXXX") || exit 2
trap 'rm -rf "$work"' EXIT
trap 'exit 2' INT TERM

# try NAME COMMAND..: 'ok NAME', or what the command printed and 'FAILED NAME'
try() {
    try_name=$1
    shift
    if "$@" >"$work/try.log" 2>&1; then
        passed=$((passed + 1))
        echo "ok $try_name"
    else
        failed=$((failed + 1))
        cat "$work/try.log"
        echo "FAILED $try_name"
    fi
}

# finish: the last line, and the script's status
finish() {
    echo "$passed passed, $failed failed"
    [ "$failed" -eq 0 ]
}
