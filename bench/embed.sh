#!/usr/bin/env bash
# How long an event takes through the library for C, in five kinds of work, with and without its line of the
# audit: nanoseconds of processor time, the least of five runs. Then the calls and the time of a heartbeat
# between two processors, the time of a post beside few and many kept messages, the microseconds of a list of
# pages and of ports and of a page's owner, and of each script that is named the time of an event, without a line. Builds the library first, where that isn't done. An event of the
# five kinds that isn't served ends it with status 1, and so do a heartbeat of more than 8 calls, a post that
# takes more than twice as long beside many messages, a list that lacks something, and a line of a script at
# which the library answers a status other than 0.
#
#     bench/embed.sh [SCRIPT..]
set -eu
[[ ${1:-} != --help ]] || { sed -n '2,/^[^#]/s/^# \{0,1\}//p' -- "${BASH_SOURCE[0]}"; exit; }

root=$(cd -- "$(dirname -- "${BASH_SOURCE[0]}")/.." && pwd)
folder=$(mktemp -d)
trap 'rm -rf -- "$folder"' EXIT

source "$root/.ci/library"
build_library "$folder"
compile "$root/bench/embed.c" "$folder/embed"
"$folder/embed"
compile "$root/bench/heartbeat.c" "$folder/heartbeat"
"$folder/heartbeat"
compile "$root/bench/queues.c" "$folder/queues"
"$folder/queues"
compile "$root/bench/lists.c" "$folder/lists"
"$folder/lists"
if (($# > 0)); then
    compile "$root/bench/scripts.c" "$folder/scripts"
    "$folder/scripts" "$@"
fi
