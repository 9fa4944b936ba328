#!/usr/bin/env bash
# Builds the library for C, and tests it from C, Rust and Python (bindings/). It is run by hand: the gate, `rt ci`, knows nothing of these languages.
#
#   tools/bindings.sh [--random SEED COUNT] [ARCHIVE]
#
# The archive is what `rt lib` makes in crates/graphql_ast_c: without a word that is run first, which proves what is not proved yet, some half an hour
# where nothing is. Tests run: the cases of golden/data and the vectors that are of documents and values, each status in buffers of every length, NUL
# bytes, long texts, threads; in C also under the address sanitizer, 10,000 calls with a search for leaks, and each allocation refused in turn.
# With --random so many random documents are printed too, in each of eight layouts, and each language has to answer what the program graphql_print
# wrote (tools/printed_cases.py).
# The last line is `bindings: C, Rust and Python passed`, and the exit status 0, or else `bindings: .. failed`, and 1.
#
# It needs, besides rt and its toolchain:
# - gcc with its sanitizers, python3, and valgrind, by which the search for leaks is run too where it is there: `apt-get install gcc python3 valgrind` on
#   Debian;
# - cargo and rustc 1.63 or later: of rustup (https://rustup.rs), or `apt-get install cargo` on Debian 12 and later. No crate is fetched;
# - for --random node (`apt-get install nodejs`), and the program, which `rt run` builds in crates/graphql_print.
set -u
cd "$(dirname "$0")/.." || exit 1

fail() {
    echo "bindings: $1 failed"
    exit 1
}

seed='' count=''
if [ "${1:-}" = --random ]; then
    seed=${2:?a seed and a count} count=${3:?a count}
    shift 3
fi
for tool in rt gcc cargo python3 ${seed:+node}; do
    command -v "$tool" >/dev/null || fail "looking for $tool, which is needed as the head of tools/bindings.sh says,"
done
if [ "$#" -eq 0 ]; then
    (cd crates/graphql_ast_c && rt lib) >crates/graphql_ast_c/rt-lib.log 2>&1 || { tail -n 20 crates/graphql_ast_c/rt-lib.log; fail "rt lib"; }
    rm -f crates/graphql_ast_c/rt-lib.log
fi
archive=$(realpath "${1:-crates/graphql_ast_c/out/libgraphql_ast_c.a}")
heap=$(realpath "$(dirname "$(rt doc)")/c/liblibc_c.a")
room=$(mktemp -d) || exit 1
trap 'rm -rf "$room"' EXIT
python3 bindings/cases.py crates/golden/data >"$room/cases" || fail "making the cases"
python3 bindings/cases.py bindings/vectors.jsonl >"$room/vectors" || fail "making the vectors"

# C: the same tests as they are, under the sanitizers, and with malloc refused.
build() {
    local to=$1
    shift
    gcc -std=c99 -Wall -Wextra -pedantic -Werror "$@" -o "$room/$to" bindings/c/tests.c "$archive" "$heap" || fail "building C ($to)"
}
build tests -O2
build sanitized -O1 -g -fsanitize=address,undefined -fno-sanitize-recover
build refusing -O1 -g -fsanitize=address,undefined -fno-sanitize-recover -DREFUSES -Wl,--wrap=malloc,--wrap=realloc
"$room/tests" "$room/cases" "$room/vectors" || fail "C"
"$room/sanitized" "$room/cases" "$room/vectors" || fail "C under the sanitizers"
"$room/sanitized" loop 10000 "$room/cases" || fail "C: 10,000 calls under the sanitizers"
"$room/refusing" refuse "$room/cases" || fail "C with memory refused"
if command -v valgrind >/dev/null; then
    valgrind -q --error-exitcode=1 --leak-check=full --show-leak-kinds=all --errors-for-leak-kinds=all "$room/tests" loop 10000 "$room/cases" ||
        fail "C: 10,000 calls under valgrind"
fi

# Rust: in a copy, since cargo writes a Cargo.lock beside the manifest.
cp -r bindings/rust "$room/rust" || exit 1
in_rust() {
    (
        cd "$room/rust" && GRAPHQL_AST_LIB=$(dirname "$archive") GRAPHQL_AST_LIBC=$(dirname "$heap") GRAPHQL_AST_CASES=$1 GRAPHQL_AST_VECTORS=$room/vectors \
            CARGO_TARGET_DIR=$room/target cargo test -q --offline "${@:2}"
    ) || fail "Rust"
}
in_rust "$room/cases"

# Python: over a shared object of the archive.
gcc -shared -o "$room/libgraphql_ast.so" -Wl,--whole-archive "$archive" -Wl,--no-whole-archive "$heap" || fail "making the shared object"
in_python() {
    GRAPHQL_AST_SO=$room/libgraphql_ast.so PYTHONDONTWRITEBYTECODE=1 python3 bindings/python/tests.py "$1" bindings/vectors.jsonl "${@:2}" || fail "Python"
}
in_python crates/golden/data

# Random documents: what the program printed is what each language is answered.
if [ -n "$seed" ]; then
    python3 tools/printed_cases.py "$seed" "$count" >"$room/printed.jsonl" || fail "printing random documents by graphql_print"
    python3 bindings/cases.py "$room/printed.jsonl" >"$room/printed" || fail "making the cases of random documents"
    "$room/tests" once "$room/printed" || fail "C: random documents"
    in_rust "$room/printed" --test calls stored_cases_are_answered -- --nocapture
    in_python "$room/printed.jsonl" Calls.test_stored_cases
fi
echo "bindings: C, Rust and Python passed"
