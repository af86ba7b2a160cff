#!/bin/sh
# Makes every file that expected.txt lists with the reference program.
#   expected.sh check   compares them with the stored ones; exit status 1 and a
#                       line for each that differs
#   expected.sh write   stores them anew and says which ones differed
set -u
mode=${1:-check}
case $mode in
check | write) ;;
*)
    echo "usage: expected.sh check | write" >&2
    exit 2
    ;;
esac
here=$(cd "$(dirname "$0")" && pwd) || exit 2
root=$(dirname "$here")
cargo build --release --offline --quiet --manifest-path "$here/Cargo.toml" || exit 2
reference=${CARGO_TARGET_DIR:-$here/target}/release/reference
made=$(mktemp) || exit 2
loaded=$(mktemp) || exit 2
trap 'rm -f "$made" "$loaded"' EXIT
cd "$root" || exit 2

# Writes, for each input that a list for the load program gives, the input as it
# stands there and what the command makes of the output.
each_load() {
    list=$1
    shift
    while IFS= read -r input; do
        printf '== %s\n' "$input"
        # The program is the last of its pipe, which would else hide its failure.
        printf '%b' "$input" | "$reference" load >"$loaded" || return 1
        "$@" <"$loaded" || return 1
    done <"$list"
}

# Writes the output of one line of the list: kind, then arguments.
make() {
    kind=$1
    shift
    case $kind in
    generate) "$reference" generate "$@" ;;
    session | states | text | roster | load | rules)
        for input in "$@"; do
            "$reference" "$kind" <"$input" || return 1
        done
        ;;
    annotate)
        codes=$1
        shift
        for input in "$@"; do
            "$reference" annotate "$codes" <"$input" || return 1
        done
        ;;
    loads) each_load "$1" cat ;;
    load-sums) each_load "$1" sha256sum ;;
    join) cat "$@" ;;
    lines) awk -f "$@" ;;
    *)
        echo "expected.txt: no such kind: $kind" >&2
        return 1
        ;;
    esac
}

files=0
differing=0
while read -r line; do
    case $line in
    '' | '#'*) continue ;;
    *' -> '*) ;;
    *)
        echo "expected.txt: no arrow: $line" >&2
        exit 2
        ;;
    esac
    path=${line##* -> }
    # The arguments are words without spaces or wildcards.
    # shellcheck disable=SC2086
    make ${line%% -> *} >"$made" </dev/null || exit 2
    files=$((files + 1))
    if ! cmp -s "$made" "$path"; then
        differing=$((differing + 1))
        echo "differs: $path"
        if [ "$mode" = write ]; then
            mkdir -p "$(dirname "$path")"
            cat "$made" >"$path"
        fi
    fi
done <"$here/expected.txt"
echo "$files files, $differing differing"
[ "$mode" = write ] || [ "$differing" -eq 0 ]
