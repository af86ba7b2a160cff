#!/bin/sh
# Makes the archive for C, shows what it has and needs, builds the examples over it and runs them, with each compiler that is here and with its sanitizers.
# A line for each test, and at the end 'N passed, M failed'. ./staticlib makes the archive; another can be given as an argument.
root=$(cd "$(dirname "$0")/../.." && pwd) || exit 2
# shellcheck source=tests/c_common.sh
. "$root/tests/c_common.sh"
examples=$root/examples/c

# The archive's symbols of some sort, by name.
symbols() { # OPTION...
    nm -P "$@" "$archive" >table && awk '$2 ~ /^[A-Za-z]$/ { print $1 }' table | sort -u
}
other_needs() {
    symbols -u >needs && ! grep -vx -e memcpy -e memset needs >&2
}
run 'the archive needs nothing but memcpy and memset' nothing other_needs

sed -n 's/^struct row_reply \(row_[a-z_]*\)(.*/\1/p' "$root/include/row_store.h" | sort >declared
run 'its global names are the calls of the header' declared symbols -g --defined-only

# size writes a line of headings, then text, data and bss of each member.
own_memory() {
    size "$archive" >sizes && awk 'NR > 1 && $2 + $3 > 0' sizes >&2
}
run 'it has no memory of its own' nothing own_memory

echo 'K1: 12 replies and the table are as they should be' >k1.out
for variant in $variants; do
    run "$variant builds k1" nothing build "$variant" "$examples/k1.c" "k1-$variant" &&
        run "k1 by $variant" k1.out "./k1-$variant"
    run "$variant builds readings" nothing build "$variant" "$examples/readings.c" "readings-$variant" &&
        run "readings by $variant" "$examples/readings.out" "./readings-$variant"
done

# K1 is C++ as well, and includes the header.
build_c_plus_plus() { # COMPILER
    # shellcheck disable=SC2086 # several words
    "$1" -O2 $warnings -I"$root/include" -x c++ "$examples/k1.c" -x none "$archive" -o "k1-$1"
}
for compiler in g++ clang++; do
    command -v "$compiler" >notes || continue
    run "$compiler builds k1" nothing build_c_plus_plus "$compiler" &&
        run "k1 by $compiler" k1.out "./k1-$compiler"
done

conclude
