# shellcheck shell=bash
# The test scripts source this. It counts their checks, and prints the last line, 'N passed, M failed'.
passed=0
failed=0
status= # what was run last ended with this
out=    # and printed this

# run COMMAND..: sets status, and out to what it printed, errors too.
run() {
    out=$("$@" 2>&1 </dev/null)
    status=$?
}

# result NAME COMMAND..: the command tells whether the check NAME passed.
result() {
    local name=$1
    shift
    if "$@"; then
        passed=$((passed + 1))
    else
        failed=$((failed + 1))
        printf 'FAILED: %s%s%s\n' "$name" "${status:+ (exit status $status)}" "${out:+$'\n'$out}" | sed 's/^/    /'
    fi
}

# The end of a test: its last line, and its exit status.
finish() {
    echo "$passed passed, $failed failed"
    [ "$failed" = 0 ]
}
