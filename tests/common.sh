# shellcheck shell=sh
# What the tests of the programs share. A script sets `name` to its program's and reads this file, which takes the program from the script's first
# argument or from where `rt ci` and `rt run` leave it, and goes to a folder for the tests' files.
set -u
cd "$(dirname "$0")" || exit 2
until [ -f crates.txt ] || [ "$PWD" = / ]; do cd ..; done
root=$PWD
program=${1:-$root/crates/$name/out/$name}
# shellcheck disable=SC2034 # for the scripts
stored=$root/crates/$name
work=$(mktemp -d) || exit 2
trap 'rm -rf "$work"' EXIT
cd "$work" || exit 2
passed=0
failed=0

# The files out and err must be as expected.
expect() { # TEST OUTPUT ERROR
    if cmp -s out "$2" && cmp -s err "$3"; then
        passed=$((passed + 1))
        echo "$name: ok, $1"
    else
        failed=$((failed + 1))
        echo "$name: FAILED, $1"
        head -n 3 err
        return 1
    fi
}
: >nothing
echo "$name: reading failed" >reading
echo "$name: writing failed" >writing

# Reads and writes that fail from the first one on. The output is to take more than one write, so that one after the failure would be told again.
expect_failures() { # INPUT
    "$program" <"$1" >/dev/full 2>err
    : >out
    expect 'no room for the output' nothing writing

    "$program" <"$1" >&- 2>err
    expect 'output closed' nothing writing

    "$program" </ >out 2>err
    expect 'input is a folder' nothing reading

    "$program" <&- >out 2>err
    expect 'input closed' nothing reading
}

# The output is a file that may grow to one block, so that a write is short and the next one fails. How long a block is, is seen on head.
within_a_block() { # PROGRAM...
    # shellcheck disable=SC3045,SC3047 # where sh has no such limit or signal, the tests fail
    (trap '' XFSZ && ulimit -f 1 && exec "$@")
}
within_a_block head -c 100000 /dev/zero >block 2>notes
front() { # FILE
    head -c "$(wc -c <block)" "$1"
}
# The block is to end within what the program writes last: after a further write the failure would be told of that one.
expect_short_write() { # INPUT OUTPUT
    front "$2" >begun
    within_a_block "$program" <"$1" >out 2>err
    expect 'a write that is short' begun writing
}
# The same, of a program that answers each line, on the lines up to the one within whose answer the block ends.
expect_short_answer() { # INPUT OUTPUT
    lines=$(($(front "$2" | wc -l) + 1))
    head -n "$lines" "$1" >few
    expect_short_write few "$2"
}

# A line without its line feed is answered at the end of the input, and there is no room for that.
expect_last_line_told() { # LINE
    printf '%s' "$1" | "$program" >/dev/full 2>err
    : >out
    expect 'no room for what a last line without its line feed gives' nothing writing
}

# The input stays open until the reply is there, but no longer than five seconds.
expect_reply_at_once() { # LINE REPLY
    echo "$2" >reply
    : >out
    # shellcheck disable=SC2094
    {
        echo "$1"
        for _ in 1 2 3 4 5 6 7 8 9 10; do
            cmp -s out reply && break
            sleep 0.5
        done
        cp out early
    } | "$program" >out 2>err
    mv early out
    expect 'a reply while the input is still open' reply nothing
}

# Input from a pipe with these bytes that stays open for two seconds: after them a read that does not wait fails.
run_till_failure() { # BYTES
    mkfifo pipe
    # shellcheck disable=SC2094
    exec 3<>pipe 4<pipe
    printf '%b' "$1" >&3
    sleep 2 >/dev/null 4<&- &
    exec 3>&-
    if dd iflag=nonblock count=0 <&4 2>notes; then
        "$program" <&4 >out 2>err
    else
        cat notes >err
    fi
    kill $! 2>notes
}

# The count, and the script's exit status.
conclude() {
    echo "$passed passed, $failed failed"
    [ "$failed" -eq 0 ]
}
