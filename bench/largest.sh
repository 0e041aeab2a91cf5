#!/usr/bin/env bash
# What `hvpm` takes for scripts of the largest size, 1,048,576 bytes, of seven kinds: calls for the caller's
# own id; rep calls of 255 elements; messages that are posted, read and cleared; partitions that are made and
# deleted; partitions that get every second of 16,000 pages and are deleted with them; 1,000 ports at one SINT
# that are filled with 8 messages each, all of which are then ended one by one; and lines of which each names
# another processor, 64 in a phase. Beside time and memory it prints the instructions of an event, as valgrind
# counts them, which are the same on every machine: those of the whole script less those of its first line. Of
# the first six kinds peak memory should stay within that of one line and twenty times the script's bytes, and
# no event should be refused. Of the last each is, since the processors aren't there.
set -eu
[[ ${1:-} != --help ]] || { sed -n '2,/^[^#]/s/^# \{0,1\}//p' -- "${BASH_SOURCE[0]}"; exit; }
source "$(dirname -- "${BASH_SOURCE[0]}")/measure.sh"

for kind in id reps messages partitions scattered queues processors; do
    measure_script "$kind" largest "$kind"
    bytes=$(awk '/ (ok|more) / && $NF != "-" { n += length($NF) / 2 } END { print n + 0 }' "$folder/audit")
    echo "bytes of the outputs: $bytes"
done
head -n 1 -- "$folder/script.hv" >"$folder/boot.hv"
echo "== the boot line alone"
measure "$program" "$folder/boot.hv"
