#!/usr/bin/env bash
# Runs the program ast_vectors on words that its tests cannot hand over, those of a command line, and compares each run's exit status,
# standard output and standard error with what is wanted: a vector's number alone is printed, with status 0; anything else is an unknown
# vector, with status 2; and what cannot be written, or has a level that doesn't fit, ends with status 1. The program is that which
# `rt run` or `rt ci` left.
#
#   tools/exit_statuses.sh
set -u
cd "$(dirname "$0")/../crates/ast_vectors" || exit 1
program=$PWD/out/ast_vectors
if ! [ -x "$program" ]; then
    echo "the program is not built: $program" >&2
    exit 1
fi
room=$(mktemp -d) || exit 1
trap 'rm -rf "$room"' EXIT
failed=0

# Compares what the last run wrote, and its status, with what is wanted: a text of standard output and one of standard error.
compare() {
    local name=$1 status=$2 wanted=$3 out=$4 err=$5
    if [ "$status" -ne "$wanted" ]; then
        echo "$name: status $status, and not $wanted"
        failed=1
    fi
    if ! cmp -s "$room/out" <(printf '%s' "$out"); then
        echo "$name: standard output is not as wanted: $(head -c 200 "$room/out")"
        failed=1
    fi
    if ! cmp -s "$room/err" <(printf '%s' "$err"); then
        echo "$name: standard error is not as wanted: $(head -c 200 "$room/err")"
        failed=1
    fi
}

# Runs the program on words, and compares: the status, standard output and standard error that are wanted, and the words.
check() {
    local wanted=$1 out=$2 err=$3 name='no word' status
    shift 3
    [ "$#" -eq 0 ] || name=$(printf '<%.40q>' "$@")
    "$program" "$@" >"$room/out" 2>"$room/err"
    status=$?
    compare "$name" "$status" "$wanted" "$out" "$err"
}

unknown=$'unknown vector\n'
refused=$'the writer failed\n'

check 0 $'[1, EXAMPLE, true, null]\n' '' 1
check 0 $'type A\n\nquery {\n  a\n}\n\n' '' 9
check 0 $'null\n' '' 15
check 1 '' $'indentation level overflow\n' 16
check 0 $'>[\n>>1,\n>]\n' '' 20
check 0 $'type A "D" query { a }\n' '' 22

check 2 '' "$unknown"
check 2 '' "$unknown" ''
for word in 0 01 23 +1 ' 1' '1 ' $'1\n' one $'\xff' $'1\xff' $'\xd9\xa1'; do
    check 2 '' "$unknown" "$word"
done
long=$(printf '1%.0s' {1..10000})
check 2 '' "$unknown" "$long"
check 2 '' "$unknown" "1$(printf ' %.0s' {1..63})"

# A second word counts, also one that isn't UTF-8, is long or is empty.
for word in 1 2 '' $'\xff' "$long"; do
    check 2 '' "$unknown" 1 "$word"
    check 2 '' "$unknown" "$word" 1
done
check 2 '' "$unknown" 1 '' ''

# Standard output that takes nothing is a fault, and standard error that takes nothing changes no status.
: >"$room/out"
"$program" 1 >/dev/full 2>"$room/err"
compare 'a refused print' "$?" 1 '' "$refused"
: >"$room/err"
"$program" 1 >/dev/full 2>/dev/full
compare 'a refused print and report' "$?" 1 '' ''
"$program" 0 >"$room/out" 2>/dev/full
compare 'a refused report' "$?" 2 '' ''

[ "$failed" -ne 0 ] || echo "every run ended as wanted"
exit "$failed"
