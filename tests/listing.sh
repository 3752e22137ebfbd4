#!/usr/bin/env bash
# The listing program on several inputs: what it prints is held to what document 01 says. It takes the program's path; without
# one it runs crates/listing/out/listing.
set -u
tests=$(dirname -- "${BASH_SOURCE[0]}")
. "$tests/counting.sh" || exit
program=${1:-$tests/../crates/listing/out/listing}

# Fields of 16 bits, low byte first.
fields() {
    for field in "$@"; do
        printf "\\$(printf %03o $((field % 256)))\\$(printf %03o $((field / 256)))"
    done
}

# same NAME FOUND WANTED: what the program printed is what it should.
same() {
    out=$2
    result "$1" test "$2" = "$3"
}

goal='7 0 0 0 0 0'

# "a case with R 0 and n 0 has one constraint"
same 'no records, no switches' "$(fields 2 0 0 0 0 0 0 0 0 0 0 0 0 0 0 0 | "$program")" "1 0
$goal"

# "1. The case is not 32 + 16R bytes with R from 0 to 256."
same 'no input' "$("$program" </dev/null)" '1 0'
same 'one byte' "$(printf x | "$program")" '1 0'
same 'a header that is two bytes short' "$(fields 2 0 0 0 0 0 0 0 0 0 0 0 0 0 0 | "$program")" '1 0'
same '257 records' "$(head -c 4144 /dev/zero | "$program")" '1 0'
same 'one byte more than the largest case' "$(head -c 4129 /dev/zero | "$program")" '1 0'
same 'endless input' "$(yes | "$program")" '1 0'

# "2. T is outside 2 to 4." The largest case has 4,128 bytes and is read whole.
same '256 records and no threads' "$(head -c 4128 /dev/zero | "$program")" '2 0'

# A case that comes in two parts is one case.
same 'a slow writer' "$( (fields 2 0 0 0 0 0 0 0; sleep 1; fields 0 0 0 0 0 0 0 0) | "$program")" "1 0
$goal"

# "3. n is over 15." n 15 is taken.
same '16 switches' "$(fields 2 16 0 0 0 0 0 0 0 0 0 0 0 0 0 0 | "$program")" '3 0'
same '15 switches' "$(fields 2 15 0 0 0 0 0 0 0 0 0 0 0 0 0 0 | "$program")" "1 0
$goal"

# "9. A record breaks the rules of its fields; the place is the lowest such record."
same 'a local target over 15' "$(fields 2 0 0 0 1 0 0 0 0 0 0 0 0 0 0 0  2 1 0 0 0 0 0 0  0 1 0 16 0 0 0 0 | "$program")" '9 2'

# A lock and an unlock of one mutex beside one global: a 5 after the lock's 4, and the mutex is item 1.
same 'a lock and an unlock' "$(fields 2 1 1 1 1 0 0 0 0 0 0 0 0 0 0 0  2 7 0 0 0 0 0 0  0 8 0 0 0 0 0 0 | "$program")" "10 6
3 1 2 0 0 0
1 1 2 0 0 0
3 2 2 0 0 0
2 2 1 0 0 0
4 1 0 0 0 0
5 1 0 0 0 0
4 2 0 0 0 1
6 0 0 0 0 0
6 1 0 2 0 0
$goal"

# A line that touches no shared item, after a lock: an 8 after its 3.
same 'an invisible line' "$(fields 2 0 0 1 1 0 0 0 0 0 0 0 0 0 0 0  2 7 0 0 0 0 0 0  0 1 0 0 0 16 0 1 | "$program")" "9 4
3 1 2 0 0 0
1 1 2 0 0 0
3 2 2 0 0 0
8 2 1 0 0 0
2 2 0 0 0 0
4 1 0 0 0 0
5 1 0 0 0 0
4 2 0 0 0 0
$goal"

# What cannot be read is no case: a folder. What cannot be written is said on standard error: a full device.
same 'a folder as input' "$("$program" </)" 'read error'
same 'a full device as output' "$(fields 2 0 0 0 0 0 0 0 0 0 0 0 0 0 0 0 | "$program" 2>&1 >/dev/full)" 'write error'

finish
