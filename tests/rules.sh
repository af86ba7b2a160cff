#!/bin/sh
# What `rt` cannot try of the rules program, whose standard input is a regular file there: input that comes in short reads or stays open, reads and writes
# that fail, and a write that is short. A line for each test, and at the end 'N passed, M failed'. `rt ci` builds the program, and so does `rt run` in its
# crate; another can be given as an argument.
name=rules
# shellcheck source=tests/common.sh
. "$(dirname "$0")/common.sh"

# Pieces of an input, most of them ending within a line: single bytes, a few, and more than the program's buffer of 65,536.
pieces() {
    for size in 1 1 5 65536 1 100001 3 4097 1 2 65537 60000 7; do
        dd bs="$size" count=1 2>notes
        sleep 0.1
    done
    dd bs=1 count=200 2>notes
    sleep 0.1
    dd bs=30000 2>notes
}
pieces <"$stored/stdin" | "$program" >out 2>err
expect 'input in short reads' "$stored/stdout" nothing

# A text of 4,096 bytes, one of 4,097, and one that is too long only by what follows its first 4,097 bytes; each in two parts.
text() { # SPACES
    printf '(%*s)' "$1" ''
}
{
    text 4094
    sleep 0.1
    echo
    text 4095
    sleep 0.1
    echo
    text 4094
    sleep 0.1
    text 70000
    sleep 0.1
    echo
} | "$program" >out 2>err
printf '()\nNO 11\nNO 11\n' >answered
expect 'the longest text' answered nothing

# Input whose answers take more than one write.
yes '(1 2 . 3)' | head -n 20000 >many
expect_failures many

expect_short_answer "$stored/stdin" "$stored/stdout"
expect_last_line_told '(1 2)'
expect_reply_at_once '(1 . (2 . 3))' '(1 2 . 3)'

# The half line has no answer.
run_till_failure '(1 2)\n(3'
echo '(1 2)' >answered
expect 'a read fails within a line' answered reading

conclude
