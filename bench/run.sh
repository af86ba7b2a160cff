#!/bin/sh
# The session program and the load program against the reference on the same inputs, all built for release, in one run: million lines or calls a second
# and the ratio. At the end calls of the store from C against the same calls inside a Rattle program, and the seat roster's calls beside those on a plain
# array.
# Usage: bench/run.sh [PROGRAM...]: further programs that do the session program's job get a column each, in the order given.
#        bench/run.sh --from-c: the calls from C alone.
#        bench/run.sh --roster: the seat roster alone.
set -eu
cd "$(dirname "$0")/.."
work=$(mktemp -d)
trap 'rm -rf "$work"' EXIT
reference_session() { "$reference" session; }
reference_load() { "$reference" load; }
lines=1000000

# A chain of C - 1 cells held at its head; then rounds that leave it as it is.
chain() { # C
    awk -v c="$1" 'BEGIN {
        print "fresh " c; print "cons 0 0"; print "step"
        for (i = 1; i < c - 1; i++) { print "cons " i " 0"; print "step" }
    }'
}
# The text over and over, up to so many lines.
repeated() { # TEXT LINES
    awk -v t="$1" -v n="$2" 'BEGIN { k = split(t, part, "/"); for (i = 0; i < n; i++) print part[i % k + 1] }'
}
# A step after an up or a down of a cell held more than once frees nothing and marks nothing.
quiet() { # C
    chain "$1"
    repeated "up $(($1 - 1)) 1/step/down $(($1 - 1)) 1/step" "$lines"
}
# A cell made and given up beside the chain: the step that takes the down looks at that cell alone and frees it.
single() { # C
    chain "$1"
    repeated "cons 0 0/step/down $1 1/step" "$lines"
}
# A chain of C - 2 cells whose head is read from the one cell that points to it and let go again: the step that takes the down has the whole chain in doubt,
# marks everything and frees nothing.
marking() { # C LINES
    chain "$1"
    repeated "up $(($1 - 1)) 1/step/car $(($1 - 1))/step/down $(($1 - 2)) 1/step" "$2"
}
# Rings of M cells, each made, closed and given up: the last step of a round frees it. Freed cells join the free chain at its front, so that every round uses
# the same cells.
rings() { # C M
    awk -v c="$1" -v m="$2" -v n="$lines" 'BEGIN {
        print "fresh " c
        for (i = 0; i < n; i += 2 * (m + 3)) {
            print "cons 0 0"; print "step"; print "up 1 1"; print "step"
            for (k = 1; k < m; k++) { print "cons " k " 0"; print "step" }
            print "setl 1 " m; print "step"; print "down 1 1"; print "step"
        }
    }'
}
# Lists of M cells, each made and given up: the last step of a round frees it, and every round uses the same cells.
lists() { # C M
    awk -v c="$1" -v m="$2" -v n="$lines" 'BEGIN {
        print "fresh " c
        for (i = 0; i < n; i += 2 * (m + 1)) {
            print "cons 0 0"; print "step"
            for (k = 1; k < m; k++) { print "cons " k " 0"; print "step" }
            print "down " m " 1"; print "step"
        }
    }'
}
# 63 packets wait all the time.
long_queue() {
    echo "fresh 64"; echo "cons 0 0"
    repeated "up 1 1/down 1 1" 62
    repeated "up 1 1/step/down 1 1/step" "$lines"
}
# 20 cells, each read from a cell of its own and let go again, in turn, with 60 packets waiting: when a down is taken, only a packet 57 places behind it
# names its cell, whose root count is 0.
named_far_behind() {
    awk -v n="$lines" 'BEGIN {
        print "fresh 64"
        for (k = 1; k <= 20; k++) { print "cons 0 0"; print "step"; print "cons " 2 * k - 1 " 0"; print "step" }
        for (k = 1; k <= 20; k++) { print "up " 2 * k " 1"; print "car " 2 * k; print "down " 2 * k - 1 " 1" }
        for (i = 0; i < n; i += 6) {
            k = k % 20 + 1
            print "up " 2 * k " 1"; print "step"; print "car " 2 * k; print "step"; print "down " 2 * k - 1 " 1"; print "step"
        }
    }'
}
# A cell made and given up with 62 packets waiting: 32 cells take turns.
single_far_behind() {
    awk -v n="$lines" 'BEGIN {
        print "fresh 64"
        for (i = 0; i < 31; i++) { print "cons 0 0"; print "down " i + 1 " 1" }
        for (; 4 * i < n; i++) { print "cons 0 0"; print "step"; print "down " i % 32 + 1 " 1"; print "step" }
    }'
}
# 64 packets wait, of one cell or of 32, and every call is refused.
full_queue_of_one() {
    echo "fresh 64"; echo "cons 0 0"
    repeated "up 1 1" 63
    repeated "up 1 1/cons 1 1/car 1/down 1 1" "$lines"
}
full_queue_of_many() {
    echo "fresh 64"
    repeated "cons 0 0" 32
    awk 'BEGIN { for (i = 1; i <= 32; i++) print "up " i " 1" }'
    repeated "up 5 1/cons 7 9/car 30/down 18 1" "$lines"
}
# 64 packets wait, and nil is read: no packet is looked at.
full_queue_of_nil_reads() {
    echo "fresh 64"; echo "cons 0 0"
    repeated "up 1 1" 63
    repeated "car 0/cdr 0" "$lines"
}
# The stored session: many short sessions, lines that are no calls among them.
stored() {
    while cat crates/session/stdin && echo; do :; done 2>/dev/null | head -n "$lines"
}
# One line over and over after a fresh: the store has next to nothing to do, so that this is the cost of a line itself.
same() { # LINE
    echo "fresh 64"
    repeated "$1" "$lines"
}

# One turn of a program: so many runs, each reading from a file and writing to one.
turn() { # RUNS PROGRAM
    left=$1
    while [ "$left" -gt 0 ]; do
        "$2" <"$work/in" >"$work/theirs"
        left=$((left - 1))
    done
}
# First the outputs are compared; then the programs take turns, five times, or once where a turn takes over three seconds. The best turn of each counts.
compare() { # NAME C COUNT RUNS OURS REFERENCE PROGRAM...
    row="| $1 | $2 | $3 |"
    count=$(($3 * $4))
    runs=$4
    ours=$5
    shift 5
    "$ours" <"$work/in" >"$work/ours"
    for program; do
        "$program" <"$work/in" >"$work/theirs"
        cmp -s "$work/ours" "$work/theirs" || { echo "outputs differ: $row $program" >&2; exit 1; }
    done
    : >"$work/spent"
    for _ in 1 2 3 4 5; do
        column=0
        for program in "$ours" "$@"; do
            column=$((column + 1))
            grep -q "^$column slow" "$work/spent" && continue
            from=$(date +%s%N)
            turn "$runs" "$program"
            spent=$((($(date +%s%N) - from) / 1000))
            echo "$column $spent" >>"$work/spent"
            [ "$spent" -lt 3000000 ] || echo "$column slow" >>"$work/spent"
        done
    done
    awk -v row="$row" -v n="$count" '
        $2 != "slow" && (!($1 in best) || $2 < best[$1]) { best[$1] = $2 }
        $1 > most { most = $1 }
        END {
            printf "%s %.2f | %.2f | %.2f |", row, n / best[1], n / best[2], best[2] / best[1]
            for (k = 3; k <= most; k++) printf " %.2f |", n / best[k]
            print ""
        }' "$work/spent"
}
# A session, whose lines count.
measure() { # NAME C
    # shellcheck disable=SC2086 # paths, which are words
    compare "$1" "$2" "$(wc -l <"$work/in")" 1 crates/session/out/session reference_session $programs
}
# A load, whose drawn calls count. One run takes a few milliseconds, of which starting the program takes more than one: so a turn has 50 runs, and what
# counts is 50 starts and 50 times the calls.
measure_load() { # SEED C
    echo "$1 $2 65535" >"$work/in"
    compare "load, seed $1" "$2" 65535 50 crates/load/out/load reference_load
}
# Rounds of four calls from C and inside a Rattle program, so many that starting a program does not weigh. All calls must be done.
measure_from_c() {
    ./prove_and_run up_and_step </dev/null >/dev/null
    ./staticlib >"$work/said" 2>&1 || { tail -n 5 "$work/said" >&2; exit 1; }
    cc -O2 -Iinclude -o "$work/from_c" bench/up_and_step.c target/staticlib/libc_store.a
    calls=8000000
    echo $((calls / 4)) >"$work/in"
    row=$(compare "up, step, down, step" 64 "$calls" 1 "$work/from_c" crates/up_and_step/out/up_and_step)
    [ "$(cat "$work/ours")" = "$calls" ] || { echo "calls were not done: $row" >&2; exit 1; }
    echo "| rounds of | C | calls | from C, million calls/s | in Rattle, million calls/s | ratio | from C, ns a call | in Rattle, ns a call | difference |"
    echo "|---|---|---|---|---|---|---|---|---|"
    awk -v row="$row" -v n="$calls" '
        $2 != "slow" && (!($1 in best) || $2 < best[$1]) { best[$1] = $2 }
        END { printf "%s %.1f | %.1f | %.1f |\n", row, 1000 * best[1] / n, 1000 * best[2] / n, 1000 * (best[1] - best[2]) / n }' "$work/spent"
}

# The seat roster: lists in the format of `reference roster`. Seat k has the reading 5k. A new seat comes first in the list, so that seat 1, set first, is
# the last of it.
seats() { # C N
    awk -v c="$1" -v n="$2" 'BEGIN {
        w = 3 + 6 * c
        print "T " w " 1 " w " 0"; print "S " c " 1 " c " 0"; print "U 0 " c " 0"
        for (k = 1; k <= n; k++) print "U 1 " k " " 5 * k
    }'
}
# So many calls of one kind. A pair removes the last seat of the list and sets it anew, which makes the next seat the last.
roster_calls() { # KIND CALLS C
    case $1 in
    filling) seats "$3" 600 | awk -v n="$(($2 / 600))" '{ list = list $0 "\n" } END { for (i = 0; i < n; i++) printf "%s", list }' ;;
    last) repeated "U 2 1 0" "$2" ;;
    absent) repeated "U 2 600 0" "$2" ;;
    count) repeated "U 4 1500 0" "$2" ;;
    set) repeated "U 1 1 5/U 1 1 4094" "$2" ;;
    pair) awk -v n="$2" 'BEGIN { for (i = 0; i < n; i++) { s = i % 600 + 1; print "U 3 " s " 0"; print "U 1 " s " " 5 * s } }' ;;
    esac
}
# The replies to the list's last calls, with every call in an R line, after which the roster's program writes what an audit says.
replies() { # PROGRAM LINES
    sed 's/^U/R/' "$work/in" | "$1" >"$work/said"
    grep '^R' "$work/said" | tail -n "$2"
}
# Nanoseconds for the list, the best of three.
fastest() { # PROGRAM
    for _ in 1 2 3; do
        from=$(date +%s%N)
        "$1" <"$work/in" >"$work/said"
        echo $(($(date +%s%N) - from))
    done | sort -n | head -n 1
}
# Microseconds a call: each line read, its call made, and its line written, "U code p q UNDECIDED", less what the seats before them take. The roster's
# program writes each name, space and number by a write of its own, eight to a line, the plain one many lines at once.
spent() { # PROGRAM C N KIND CALLS
    seats "$2" "$3" >"$work/in"
    before=$(fastest "$1")
    roster_calls "$4" "$5" "$2" >>"$work/in"
    echo "$before $(fastest "$1") $5" | awk '{ print ($2 - $1) / 1000 / $3 }'
}
measure_roster() { # NAME C N KIND CALLS PLAIN
    { seats "$2" "$3"; roster_calls "$4" 600 "$2"; } >"$work/in"
    replies crates/roster_cases/out/roster_cases 600 >"$work/ours"
    if grep '^A' "$work/said" | grep -qv '^A 0 0 [01] [01] [01] '; then echo "not sound: $1, C = $2" >&2; exit 1; fi
    replies "$work/plain_roster" 600 >"$work/theirs"
    cmp -s "$work/ours" "$work/theirs" || { echo "replies differ: $1, C = $2" >&2; exit 1; }
    ours=$(spent crates/roster_cases/out/roster_cases "$2" "$3" "$4" "$5")
    plain=$(spent "$work/plain_roster" "$2" "$3" "$4" "$6")
    awk -v row="| $1 | $2 | $5 | $6 |" -v a="$ours" -v b="$plain" 'BEGIN { printf "%s %.1f | %.3f | %.0f |\n", row, a, b, a / b }'
}
measure_rosters() {
    ./prove_and_run roster_cases </dev/null >/dev/null
    rustc -O -o "$work/plain_roster" bench/plain_roster.rs
    echo "| seat roster | C | calls | calls on the array | roster, us a call | plain array, us a call | ratio |"
    echo "|---|---|---|---|---|---|---|"
    for c in 1200 4096; do
        measure_roster "filling 600 seats, a set" "$c" 0 filling 6000 3000000
        measure_roster "look up of the last of 600 seats" "$c" 600 last 3000 3000000
        measure_roster "look up of an absent seat, 599 present" "$c" 599 absent 3000 3000000
        measure_roster "count of 600 seats" "$c" 600 count 3000 3000000
        measure_roster "set of the last of 600 seats" "$c" 600 set 3000 3000000
        measure_roster "remove of the last of 600 seats and set of it, a pair" "$c" 600 pair 1200 1000000
    done
}
case ${1-} in
--from-c)
    measure_from_c
    exit
    ;;
--roster)
    measure_rosters
    exit
    ;;
esac

./prove_and_run session </dev/null >/dev/null
./prove_and_run load </dev/null >/dev/null
cargo build --release --offline --quiet --manifest-path reference/Cargo.toml
reference=${CARGO_TARGET_DIR:-reference/target}/release/reference
programs=
heading="| input | C | lines | ours, million lines/s | reference, million lines/s | ratio |"
rule="|---|---|---|---|---|---|"
for program; do
    programs="$programs $(readlink -f "$program")"
    heading="$heading $(basename "$program"), million lines/s |"
    rule="$rule---|"
done
echo "$heading"
echo "$rule"
for c in 64 512 4096; do
    "$reference" generate 7 session lively "$c" "$lines" >"$work/in"
    measure "mix of calls" "$c"
    for kind in full rings; do
        "$reference" generate 7 session "$kind" "$c" "$lines" >"$work/in"
        measure "sessions: $kind" "$c"
    done
    quiet "$c" >"$work/in"
    measure "steps that free nothing" "$c"
    single "$c" >"$work/in"
    measure "a cell made and given up" "$c"
    marking "$c" $((lines / (c < 4096 ? 1 : 20))) >"$work/in"
    measure "steps that mark everything" "$c"
    rings "$c" $((c / 2)) >"$work/in"
    measure "rings of C / 2 made and given up" "$c"
done
"$reference" generate 7 session mixed 64 "$lines" >"$work/in"
measure "sessions: mixed" 64
for ring in "64 64" "4096 64" "4095 65" "4096 4096"; do
    # shellcheck disable=SC2086 # C and M
    rings $ring >"$work/in"
    measure "rings of ${ring#* } made and given up" "${ring% *}"
done
lists 4096 8 >"$work/in"
measure "lists of 8 made and given up" 4096
long_queue >"$work/in"
measure "63 packets of one cell waiting" 64
named_far_behind >"$work/in"
measure "steps that free nothing, the cell named 57 packets behind" 64
single_far_behind >"$work/in"
measure "a cell made and given up, 62 packets waiting" 64
full_queue_of_one >"$work/in"
measure "64 packets of one cell waiting, all refused" 64
full_queue_of_many >"$work/in"
measure "64 packets of 32 cells waiting, all refused" 64
full_queue_of_nil_reads >"$work/in"
measure "64 packets waiting, nil read" 64
stored >"$work/in"
measure "the stored session" "1 to 4,096"
for line in "car 70" "car 0" "step" "no call"; do
    same "$line" >"$work/in"
    measure "'$line' over and over" 64
done

# The least time of five runs, in microseconds.
least() {
    for _ in 1 2 3 4 5; do
        from=$(date +%s%N)
        crates/session/out/session <"$work/in" >"$work/ours"
        echo $((($(date +%s%N) - from) / 1000))
    done | sort -n | head -n 1
}
# A marking step alone: rounds added, so that the chain's making falls out.
marking_round() { # C
    for rounds in 1000 5000; do
        marking "$1" $((6 * rounds)) >"$work/in"
        least
    done | awk 'NR == 1 { few = $1 } END { print ($1 - few) / 4000 }'
}
mix_line() { # C
    "$reference" generate 7 session lively "$1" "$lines" >"$work/in"
    least | awk -v n="$lines" '{ print $1 / n }'
}
growth() { # WHAT SMALL LARGE
    awk -v what="$1" -v a="$2" -v b="$3" 'BEGIN {
        printf "%s takes %.2f us at C = 512 and %.2f us at C = 4,096: growth %.1f.\n", what, a, b, b / a }'
}
echo
growth "A round with one step that marks everything" "$(marking_round 512)" "$(marking_round 4096)"
growth "A line of the mix" "$(mix_line 512)" "$(mix_line 4096)"

echo
echo "| input | C | calls | ours, million calls/s | reference, million calls/s | ratio |"
echo "|---|---|---|---|---|---|"
# The seeds of the reference's long inputs, with which a cons is accepted also in a large store.
measure_load 408858366 3
measure_load 1775118300 64
measure_load 1976993156 600
measure_load 3877942671 4096

echo
measure_from_c

echo
measure_rosters
