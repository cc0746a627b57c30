#!/usr/bin/env bash
# Each header stands alone in C and C++; the example in the opening comment of the
# first compiles as it stands and says what is true; its version is one version,
# and its calls are those of the library. Last line: 'N passed, M failed'.
set -uo pipefail
cd "$(dirname "${BASH_SOURCE[0]}")/.." || exit 1

header=include/rbatl.h
library=target/staticlib/librbatl.a
work=$(mktemp -d) || exit 1
trap 'rm -rf "$work"' EXIT
passed=0
failed=0

# try NAME COMMAND..: counts whether the command succeeds.
try() {
    local name=$1
    shift
    if "$@"; then
        passed=$((passed + 1))
    else
        failed=$((failed + 1))
        printf 'FAILED: %s\n' "$name"
    fi
}

strict=(-Wall -Wextra -pedantic -Wconversion -Wshadow -Werror -Iinclude)

for alone in "$header" include/rbatl_job.h; do
    try "$alone as C99" gcc -std=c99 "${strict[@]}" -x c -fsyntax-only "$alone"
    try "$alone as C11" gcc -std=c11 "${strict[@]}" -x c -fsyntax-only "$alone"
    try "$alone as C++11" g++ -std=c++11 "${strict[@]}" -x c++ -fsyntax-only "$alone"
    try "$alone as C++17" g++ -std=c++17 "${strict[@]}" -x c++ -fsyntax-only "$alone"
done

# The indented lines of the opening comment.
sed -n '1,/^ \*\/$/s/^ \*     //p' "$header" >"$work/example.c"
try 'an example of about ten lines' test "$(wc -l <"$work/example.c")" -ge 10

says() { [[ $("$1") == 'row 2 is true in state 0' ]]; }

try 'the example as C99' gcc -std=c99 "${strict[@]}" "$work/example.c" "$library" -o "$work/c"
try 'the answer from C' says "$work/c"
try 'the example as C++11' g++ -std=c++11 "${strict[@]}" -x c++ "$work/example.c" -x none "$library" \
    -o "$work/cpp"
try 'the answer from C++' says "$work/cpp"

# The number of the version, in parts, is its string.
value_of() { printf '#include "rbatl.h"\n%s\n' "$1" | gcc -std=c99 -Iinclude -E -P -x c - | tail -n 1; }
one_version() {
    local number
    number=$(value_of RBATL_VERSION_NUMBER)
    [[ $(value_of RBATL_VERSION) == "\"$((number / 10000)).$((number / 100 % 100)).$((number % 100))\"" ]]
}
try 'one version' one_version

# Every call that the header declares is in the library, and no other.
declared() { grep -oE '^int32_t rbatl_[a-z_]+' "$header" | cut -d' ' -f2 | sort; }
exported() { nm -g --defined-only "$library" 2>/dev/null | awk '$2 == "T" && /rbatl_/ { print $3 }' | sort; }
same_calls() { [[ -n $(declared) ]] && diff <(declared) <(exported); }
try 'the calls of the library' same_calls

printf '%d passed, %d failed\n' "$passed" "$failed"
((failed == 0))
