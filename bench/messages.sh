#!/usr/bin/env bash
# How long `hvpm` takes for messages, event flags and interrupts, as processors, partitions, ports and kept
# messages grow. Each script has the same work in 1,600 turns of 12 events: two posts; the slot is read, its
# interrupt taken, the slot cleared; EOM shows the second message, whose interrupt is taken and which is
# cleared; a signal; the flags are read, the interrupt taken and the flag cleared. The time of an event should
# stay level but for one thing: a look-up of a partition walks the tree. No event should be refused. A script
# has no room for more kept messages: bench/queues.c posts beside 32,000.
set -eu
[[ ${1:-} != --help ]] || { sed -n '2,/^[^#]/s/^# \{0,1\}//p' -- "${BASH_SOURCE[0]}"; exit; }
source "$(dirname -- "${BASH_SOURCE[0]}")/measure.sh"

for processors in 1 10 64; do
    measure_script "processors of the root, with 100 ports of each kind: $processors" messages processors "$processors" 100
done
for ports in 1 10 100; do
    measure_script "ports of each kind at one processor: $ports" messages processors 1 "$ports"
done
for partitions in 1 10 100; do
    measure_script "partitions beside the root: $partitions" messages partitions "$partitions"
done
for kept in 1 10 100 700; do
    measure_script "kept messages at the processor: $kept" messages kept "$kept"
done
