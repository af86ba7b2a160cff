#!/bin/sh
# What `rt` cannot try of the load program, which it runs on one input, a regular file: all inputs of the reference, input that comes in short reads or
# is long, the memory that is used, reads and writes that fail, a write that is short, and the session program on the same calls. A line for each test, and
# at the end 'N passed, M failed'. `rt ci` builds the programs, and so does `rt run` in their crates; others can be given: tests/load.sh [LOAD [SESSION]].
name=load
# shellcheck source=tests/common.sh
. "$(dirname "$0")/common.sh"
session=${2:-$root/crates/session/out/session}
cases=$root/reference/cases
echo BAD >bad

# For each input of a list its line there, then what the filter makes of the program's output, as the reference's files have it.
answers() { # LIST FILTER PROGRAM...
    list=$cases/$1
    filter=$2
    shift 2
    [ -s "$list" ] || echo "no inputs: $list" >&2
    while IFS= read -r input || [ -n "$input" ]; do
        printf '== %s\n' "$input"
        printf '%b' "$input" | "$@" >answer || printf 'exit status %s: %s\n' "$?" "$input" >&2
        "$filter" <answer
    done <"$list"
}
# The file out must be as expected; else the first difference is shown, after the input that it belongs to.
expect_answers() { # TEST EXPECTED
    expect "$1" "$2" nothing || { cat out; echo '(end)'; } | awk -v expected="$2" '
        (getline line <expected) != 1 { line = "(end)" }
        $0 != line { print input; print "expected: " line; print "written:  " $0; exit }
        /^== / { input = $0 }'
}
answers load.inputs cat "$program" >out 2>err
expect_answers 'all short inputs' "$cases/load.outputs"

answers load-long.inputs sha256sum "$program" >out 2>err
expect_answers 'inputs of 65,535 calls' "$cases/load-long.sums"

# Standard input, one byte at a time.
singly() {
    while dd bs=1 count=1 of=byte 2>notes && [ -s byte ]; do
        cat byte
        sleep 0.1
    done
}
singly <"$stored/stdin" | "$program" >out 2>err
expect 'input in short reads' "$stored/stdout" nothing

# Until its last byte this input is good.
{ cat "$stored/stdin"; echo; } | singly | "$program" >out 2>err
expect 'bad input in short reads' bad nothing

{ tr -d '\n' <"$stored/stdin"; sleep 1; echo; } | "$program" >out 2>err
expect 'a line feed that comes late' "$stored/stdout" nothing

# 50 MB of a byte, as tr writes it.
plenty() { # BYTE
    head -c 50000000 /dev/zero | tr '\000' "$1"
}
plenty '\000' | "$program" >out 2>err
expect '50 MB of zero bytes' bad nothing

plenty 0 | "$program" >out 2>err
expect '50 MB of the digit 0' bad nothing

{ cat "$stored/stdin"; plenty '\n'; } | "$program" >out 2>err
expect 'a line and 50 MB of line feeds' bad nothing

# Memory is limited to the least with which a short input is answered, found in steps of 64 KiB, and one step more: too little for keeping 50 MB of input,
# or the 1.2 MB that 65,535 calls write.
within() { # KIB PROGRAM...
    # shellcheck disable=SC3045 # where sh has no such limit, the tests fail
    (ulimit -v "$1" && shift && exec "$@")
}
least() { # PROGRAM...
    echo '0 0 0' | "$@" >whole
    low=0
    high=65536
    while [ $((high - low)) -gt 64 ]; do
        middle=$(((low + high) / 2))
        if echo '0 0 0' | within "$middle" "$@" >part && cmp -s part whole; then
            high=$middle
        else
            low=$middle
        fi
    done 2>/dev/null
    echo $((high + 64))
}
room=$(least "$program")
{ cat "$stored/stdin"; plenty '\n'; } | within "$room" "$program" >out 2>err
expect '50 MB of input take no more memory' bad nothing

answers load-long.inputs sha256sum within "$room" "$program" >out 2>err
expect_answers '65,535 calls take no more memory' "$cases/load-long.sums"

# Else these two would mean nothing: tail keeps what it reads from a pipe, so it must not get by.
: >out
if head -c 1200000 /dev/zero | within "$(least tail -c 50000000)" tail -c 50000000 >kept 2>err; then
    echo 'tail kept 1.2 MB' >err
else
    : >err
fi
expect 'the limit on memory holds' nothing nothing

echo '7 64 65535' >long
expect_failures long

expect_short_write "$stored/stdin" "$stored/stdout"
expect_last_line_told '7 64 1000'

# The line that was read in whole is not answered.
run_till_failure '7 64 1000\n'
expect 'a read fails after the line' nothing reading

# The call lines of a listing, as a session, must get its reply lines, of which there is at least one.
reply_lines() {
    awk 'NR % 2 == 0; END { if (NR < 2) print "no reply line" }'
}
replies_in_session() {
    awk 'NR % 2 == 1' | "$session"
}
answers load-long.inputs reply_lines "$program" >replies 2>notes
answers load-long.inputs replies_in_session "$program" >out 2>err
expect_answers 'the session program has the same replies' replies

conclude
