#!/usr/bin/env bash
# What the longest events take through the library for C: of each kind the least of five runs in nanoseconds of
# processor time, and its instructions, as valgrind counts them, where that is installed. Builds the library
# first, where that isn't done. The status is 1 where an event isn't served.
#
#     bench/longest.sh
set -eu
[[ ${1:-} != --help ]] || { sed -n '2,/^[^#]/s/^# \{0,1\}//p' -- "${BASH_SOURCE[0]}"; exit; }

root=$(cd -- "$(dirname -- "${BASH_SOURCE[0]}")/.." && pwd)
folder=$(mktemp -d)
trap 'rm -rf -- "$folder"' EXIT

source "$root/.ci/library"
build_library "$folder"
compile "$root/bench/longest.c" "$folder/longest"

# The instructions of the program with these words.
count() {
    valgrind --tool=none --log-file=/dev/null true 2>/dev/null || return 0
    valgrind --tool=callgrind --callgrind-out-file=/dev/null "$folder/longest" "$@" 2>&1 >/dev/null \
        | sed -n 's/.*Collected : \([0-9]*\).*/\1/p'
}

"$folder/longest" | while read -r kind; do
    least=$(for _ in 1 2 3 4 5; do "$folder/longest" "$kind"; done | sort -n | head -n 1)
    with=$(count "$kind") without=$(count "$kind" -)
    echo "$kind $least ns${with:+, $((with - without)) instructions}"
done
