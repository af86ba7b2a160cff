#!/usr/bin/env bash
# evidence/run.sh [CRATE..]: tries the must-fail edits that lie outside the merge gate, those of the named crates or all, in a copy of the repository, in which
# they stand in the place of the gate's. There `rt ci CRATE..` proves these crates and those below them, where an earlier run on this machine has not passed the
# same files, and tries the edits.
# A line for each edit: its name, refused or ACCEPTED, and the place and text of its first error. The last line is 'N refused, M accepted'.
# Exit status: 0 all refused, and at least one tried; 1 otherwise; 2 bad usage.
set -u -o pipefail
cd "$(dirname "$0")/.." || exit 2
refused=0
accepted=0
unfit=''
missing=' '
job=''

die() { printf 'evidence: %s\n' "$*" >&2; exit 2; }

# Ends the prover's processes, which are one group, and removes the copy.
clean() {
    trap '' HUP INT TERM
    [ -z "$job" ] || kill -TERM -- "-$job" 2>/dev/null
    [ -z "$job" ] || wait "$job" 2>/dev/null
    rm -rf "$work"
}

# Prints the crates to try, one to a line: the named ones, or all that have a folder here.
wanted_crates() { # [CRATE..]
    local folder
    if [ $# -gt 0 ]; then
        printf '%s\n' "$@" | sort -u
        return
    fi
    for folder in evidence/*/; do [ -d "$folder" ] && basename "$folder"; done
}

# Copies the files of the repository as they stand, but what rt and cargo have made of them.
copy_repository() {
    local part
    mkdir "$copy" || return
    if git rev-parse --is-inside-work-tree >/dev/null 2>&1; then
        git ls-files -z --cached --others --exclude-standard | while IFS= read -r -d '' part; do
            if [ -e "$part" ] || [ -L "$part" ]; then printf '%s\0' "$part"; fi
        done | sort -zu | tar -cf - --null -T - | tar -xf - -C "$copy"
    else
        tar -cf - --exclude=./target --exclude=./reference/target --exclude='./crates/*/out' . | tar -xf - -C "$copy"
    fi
}

# Puts the wanted crates' edits of this folder in the place of those that the gate tries; 'missing' has each edit that no line has told of yet.
place_edits() { # CRATE..
    local crate edit
    rm -rf "$copy"/crates/*/must-fail
    for crate in "$@"; do
        for edit in "evidence/$crate"/*.edit; do
            [ -f "$edit" ] || { echo "evidence: $crate has no edit here"; continue; }
            mkdir -p "$copy/crates/$crate/must-fail"
            cp "$edit" "$copy/crates/$crate/must-fail/" || return
            missing="$missing$crate/$(basename "$edit" .edit) "
        done
    done
}

# What rt says behind 'refused, as it must be' is nothing, or in brackets that it says little, and the first error behind a colon.
tell_refused() { # CRATE/NAME SAID
    local said=${2#: }
    case $2 in
    ' (only because a proof file names what the edit took away'*)
        said="THE PROOF FILE NO LONGER FITS, which shows nothing: ${2#*): }"
        unfit="$unfit $1"
        ;;
    ' (only by a limit of the prover'*) said="BY A LIMIT OF THE PROVER, which shows little: ${2#*): }" ;;
    esac
    printf '%s: refused: %s\n' "$1" "$said"
    refused=$((refused + 1))
}

tell_accepted() { # CRATE/NAME WHY
    printf '%s: ACCEPTED%s\n' "$1" "$2"
    accepted=$((accepted + 1))
}

# Tells of one line that rt printed: of an edit, or that something is not as it should be.
tell() { # LINE
    local name rest
    case $1 in
    'rt: must-fail '*': '*)
        rest=${1#rt: must-fail }
        name=${rest%%:*}
        name=${name%.edit}
        rest=${rest#*: }
        missing=${missing/" $name "/ }
        case $rest in
        'refused, as it must be'*) tell_refused "$name" "${rest#refused, as it must be}" ;;
        'NOT REFUSED'*) tell_accepted "$name" ': the crate is still proved with this edit' ;;
        *) tell_accepted "$name" ", since it shows nothing: $rest" ;;
        esac
        ;;
    'rt: '*'NOT PROVED'* | 'rt: '*FAILED* | 'rt: crates.txt'* | 'rt: '*': error'*) printf '%s\n' "$1" ;;
    esac
}

crates=()
while IFS= read -r crate; do crates+=("$crate"); done < <(wanted_crates "$@")
for crate in "${crates[@]}"; do
    case $crate in '' | *[!A-Za-z0-9_]*) die "'$crate' is not the name of a crate" ;; esac
    [ -d "crates/$crate/src" ] || die "there is no crate '$crate'"
done
command -v rt >/dev/null || die "there is no rt on the path"

work=$(mktemp -d) || exit 2
copy=$work/repository
trap clean EXIT
trap 'exit 129' HUP
trap 'exit 130' INT
trap 'exit 141' PIPE
trap 'exit 143' TERM
copy_repository || die "the repository could not be copied to $work"
place_edits "${crates[@]}" || die "the edits could not be copied"
mkfifo "$work/said" || exit 2

# rt is a group of processes of its own, so that an interruption ends all of them.
status=0
if [ "$missing" != ' ' ]; then
    set -m
    (cd "$copy" && exec rt ci "${crates[@]}") >"$work/said" 2>&1 &
    job=$!
    set +m
    while IFS= read -r line; do tell "$line"; done <"$work/said"
    wait "$job"
    status=$?
    job=''
fi
for name in $missing; do tell_accepted "$name" ", since it shows nothing: rt did not try it"; done
[ -z "$unfit" ] || echo "refused only because the proof file no longer fits the code:$unfit"
[ "$status" -le 1 ] || echo "evidence: rt ended with status $status"
echo "$refused refused, $accepted accepted"
[ "$status" -eq 0 ] && [ "$accepted" -eq 0 ] && [ "$refused" -gt 0 ]
