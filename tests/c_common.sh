# shellcheck shell=sh
# What the tests from C share: the archive and the compilers. A script sets `root` and reads this file, which takes the archive from the script's first
# argument or has ./staticlib prove and make it, finds the compilers, and goes to a folder for the tests' files.
name=c_store
case ${1:-} in
'' | /*) archive=${1:-} ;;
*) archive=$PWD/$1 ;;
esac
# shellcheck source=tests/common.sh
. "$root/tests/common.sh"

# A test that is a command: it must succeed, write what is expected, and nothing to standard error.
run() { # TEST EXPECTED COMMAND...
    test=$1
    expected=$2
    shift 2
    "$@" >out 2>err || echo "exit status $?" >>err
    expect "$test" "$expected" nothing && return
    cmp out "$expected" 2>&1
    return 1
}
# The same, whatever it writes to standard output, which is kept in the file said.
succeed() { # TEST COMMAND...
    test=$1
    shift
    "$@" >said 2>err || echo "exit status $?" >>err
    : >out
    expect "$test" nothing nothing
}
# Where the rest would mean nothing.
give_up() { # TEST
    echo "$1" >err
    : >out
    expect "$1" nothing nothing
    conclude
    exit 1
}

if [ -z "$archive" ]; then
    archive=$root/target/staticlib/libc_store.a
    "$root/staticlib" >said 2>&1 || { tail -n 5 said; give_up './staticlib failed'; }
fi
[ -s "$archive" ] || give_up "no archive: $archive"

warnings='-Wall -Wextra -Wpedantic -Werror'
sanitizers='-g -fsanitize=address,undefined -fno-sanitize-recover=all'

# Whether a compiler has sanitizers, and a program made with them runs.
sanitizes() { # COMPILER
    echo 'int main(void) { return 0; }' >tiny.c
    # shellcheck disable=SC2086 # several words
    "$1" $sanitizers tiny.c -o tiny 2>notes && ./tiny 2>notes
}

# How C programs are built here: with each compiler, plainly and with its sanitizers.
variants=
for compiler in gcc clang; do
    command -v "$compiler" >notes || continue
    variants="$variants $compiler"
    sanitizes "$compiler" && variants="$variants $compiler-sanitized"
done
[ -n "$variants" ] || give_up 'no C compiler'

# Builds a program over the archive, warnings being errors.
build() { # VARIANT SOURCE PROGRAM
    flags=
    [ "$1" = "${1%-sanitized}" ] || flags=$sanitizers
    # shellcheck disable=SC2086 # several words
    "${1%-sanitized}" -std=c11 -O2 $warnings $flags -I"$root/include" "$2" "$archive" -o "$3"
}
