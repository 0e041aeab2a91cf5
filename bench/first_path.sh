#!/usr/bin/env bash
# How long `hvpm` takes, and how much memory, for scripts of growing size up to the largest: 1,048,576 bytes.
# Time and memory should grow with the size, and the audit should have one line for each call.
set -eu
[[ ${1:-} != --help ]] || { sed -n '2,/^[^#]/s/^# \{0,1\}//p' -- "${BASH_SOURCE[0]}"; exit; }
source "$(dirname -- "${BASH_SOURCE[0]}")/measure.sh"

for bytes in 1024 16384 131072 262144 524288 1048576; do
    measure_script "" first_path "$bytes"
done
