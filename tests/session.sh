#!/bin/sh
# What `rt` does not try of the session program, whose standard input is one regular file there: input that comes in short reads or stays open, reads and
# writes that fail, a write that is short, and a further session. A line for each test, and at the end 'N passed, M failed'. `rt ci` builds the program, and
# so does `rt run` in its crate; another can be given as an argument.
name=session
# shellcheck source=tests/common.sh
. "$(dirname "$0")/common.sh"

# Pieces of the stored input, most of them ending within a line: single bytes, a few, and more than the program's buffer of 65,536.
pieces() {
    for size in 1 1 5 65536 1 100001 3 4097 1 2 65537 60000 7; do
        dd bs="$size" count=1 2>notes
        sleep 0.1
    done
    dd bs=1 count=200 2>notes
    sleep 0.1
    dd bs=30000 2>notes
}
pieces <"$stored/stdin" | "$program" >out 2>err
expect 'input in short reads' "$stored/stdout" nothing

expect_failures "$stored/stdin"

expect_short_answer "$stored/stdin" "$stored/stdout"
expect_last_line_told 'fresh 3'
expect_reply_at_once 'fresh 3' '1 OK 0'

# The half line has no answer.
run_till_failure 'fresh 3\nste'
echo '1 OK 0' >answered
expect 'a read fails within a line' answered reading

# The steps that let go of each structure look at what hangs there alone, or mark: the replies are the reference's.
"$program" <"$root/reference/cases/given-up.session" >out 2>err
expect 'structures of 1 to 66, 4,095 and 4,096 cells given up' "$root/reference/cases/given-up.replies" nothing

conclude
