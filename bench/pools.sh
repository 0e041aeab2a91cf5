#!/usr/bin/env bash
# How long `hvpm` takes for long rep calls on large page sets. First all pages are withdrawn from the root's
# pool, the lowest first, and then deposited into it again, 511 pages a call; each page is an event, and each
# set is without gaps. Then every second loose page is deposited, the lowest first, which leaves pages that
# lie alone on both sides. Last, loose pages are deposited in a random order from a fixed seed. An event of
# 65,536 pages takes at most twice the time of one of 4,096.
set -eu
[[ ${1:-} != --help ]] || { sed -n '2,/^[^#]/s/^# \{0,1\}//p' -- "${BASH_SOURCE[0]}"; exit; }
source "$(dirname -- "${BASH_SOURCE[0]}")/measure.sh"

for pages in 4096 8192 16384 32768 65536; do
    moved=$((pages - 8 < 60000 ? pages - 8 : 60000))
    measure_script "$pages pages, $((2 * moved)) events" pools in_order "$pages" "$moved"
    measure_script "every second of $pages pages, $(((pages - 8 + 1) / 2)) events" pools every_second "$pages"
    measure_script "$moved of $pages pages in a random order" pools random "$pages" "$moved"
done
