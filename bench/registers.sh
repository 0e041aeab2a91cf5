#!/usr/bin/env bash
# How long `hvpm` takes for registers and MSRs, as processors and partitions grow. Each script has the same
# work in 64 turns: a call that writes 100 registers, a call that reads 100, and 100 writes and 100 reads of
# MSRs, 25,600 events in all. The time of an event should stay level from 1 processor to 64 and from 1
# partition to 100: where it grows, an event goes through processors or partitions that it doesn't name. No
# event should be refused.
set -eu
[[ ${1:-} != --help ]] || { sed -n '2,/^[^#]/s/^# \{0,1\}//p' -- "${BASH_SOURCE[0]}"; exit; }
source "$(dirname -- "${BASH_SOURCE[0]}")/measure.sh"

for processors in 1 4 16 64; do
    measure_script "processors of the root: $processors" registers processors "$processors"
done
for partitions in 1 10 50 100; do
    measure_script "partitions beside the root: $partitions" registers partitions "$partitions"
done
