#!/bin/sh
# Whether the documents are true of the repository, as far as a program can tell: what they cite is there, and what they count is counted anew. A line for each
# test, with what offends below one that failed, and at the end 'N passed, M failed'. It needs python3 and no `rt`.
name=documents
# shellcheck source=tests/common.sh
. "$(dirname "$0")/common.sh"

# The test's offenders, a line each, must be none; nor may it end early.
try() { # TEST WHAT
    if python3 -B "$root/tests/documents.py" "$1" >out 2>err && [ ! -s out ]; then
        passed=$((passed + 1))
        echo "$name: ok, $2"
    else
        failed=$((failed + 1))
        echo "$name: FAILED, $2"
        cat out
        tail -n 3 err
    fi
}
try names 'every name of a definition, function or file that is cited is there'
try edits 'every must-fail edit that is cited is there, and each is cited in docs/TRACE.md'
try fits 'every must-fail edit can be applied: each old text stands once in its file'
try counts 'the numbers in docs/TRACE.md, docs/ASSUMPTIONS.md and README.md are those counted'
try pictures 'the pictures are those that docs/architecture.py draws, with every crate'
try links 'every link, anchor and path leads somewhere'
try tables 'the tables have every crate, every file of crates/machine/specs and every document, and no other'
try dependencies 'crates.txt lists for each crate the crates that its own files name, and no others'

conclude
