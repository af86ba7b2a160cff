#!/bin/sh
# The store from C, against the reference: sessions, lists of stores and calls, damaged stores among them; the header's numbers; and garbage. A line for each
# test, and at the end 'N passed, M failed'. ./staticlib makes the archive; another can be given as an argument. cargo builds the reference. SEED=N
# tries other sessions, lists and garbage.
root=$(cd "$(dirname "$0")/.." && pwd) || exit 2
# shellcheck source=tests/c_common.sh
. "$root/tests/c_common.sh"
seed=${SEED:-7}
sources=$root/tests/c
stored_lists=$root/crates/store_cases
stored_session=$root/crates/session

cargo build --release --offline --quiet --manifest-path "$root/reference/Cargo.toml" 2>notes || give_up 'the reference was not built'
reference=${CARGO_TARGET_DIR:-$root/reference/target}/release/reference

# What is stored, and some garbage, by each variant.
echo 'the library replies every number of the header where it should' >borders.out
for variant in $variants; do
    for program in session states borders garbage; do
        run "$variant builds $program" nothing build "$variant" "$sources/$program.c" "$program-$variant"
    done
    run "the stored session by $variant" "$stored_session/stdout" "./session-$variant" <"$stored_session/stdin"
    for placement in end start; do
        run "the stored lists by $variant, at the $placement of pages" "$stored_lists/stdout" "./states-$variant" "$placement" <"$stored_lists/stdin"
    done
    run "the header's numbers by $variant" borders.out "./borders-$variant"
    succeed "100,000 calls on garbage by $variant" "./garbage-$variant" "$seed" 100000
done

# The rest by the first.
# shellcheck disable=SC2086 # several words
set -- $variants
session=./session-$1
states=./states-$1
garbage=./garbage-$1

# Sessions of a style in stores of several sizes, one after the other through a program.
sessions() { # STYLE PROGRAM...
    style=$1
    shift
    for cells in 1 3 64 300 4096; do
        "$reference" generate "$seed" session "$style" "$cells" 9000 >session.in && "$@" <session.in || return 1
    done
}
total=0
for style in lively full rings refusals freshes bad mixed named ceiling; do
    sessions "$style" "$reference" session >expected
    lines=$(wc -l <expected)
    total=$((total + lines))
    run "$lines lines of sessions, $style" expected sessions "$style" "$session"
done
succeed "$total lines of sessions are 400,000 or more" [ "$total" -ge 400000 ]

# A list made anew: the calls that the papers leave undecided are marked in it.
make_list() { # LIST CASES
    "$reference" generate "$seed" states "$1" "$2" >unmarked &&
        "$reference" annotate 0-11 <unmarked >marked &&
        "$reference" states <marked >expected &&
        [ -s expected ]
}
total=0
while read -r list cases; do
    make_list "$list" "$cases" || echo 'no list' >expected
    calls=$(grep -c '^[CBU]' marked)
    total=$((total + calls))
    for placement in end start; do
        run "$calls calls of the list $list, at the $placement of pages" expected "$states" "$placement" <marked
    done
done <<END
mutants 600
garbage 300
wrecks 400
runs 60
snapshots 100
rows 120
named 200
large 2000
text-random 2000
text-mixed 150
text-back 150
text-shapes 100
text-damaged 400
END
succeed "$total calls of lists are 50,000 or more" [ "$total" -ge 50000 ]

for k in 1 2 3 4; do
    succeed "250,000 calls on garbage, seed $seed$k" "$garbage" "$seed$k" 250000
done

conclude
