#!/usr/bin/env bash
# Times events of vCPUs on threads over the shared bus: bench/threads.sh [INSTRUCTIONS]. All vCPUs fetch from one page, or each
# from a page of its own; an instruction of these guests is one event. Prints for 1, 2, 4 and 8 vCPUs how many thousand events
# all of them make in a second together, the median of several turns; the time that the start takes is not counted. Each
# vCPU makes 1,000,000 instructions without the argument. The program is proved and built first where it is missing or older
# than a source.
set -euo pipefail
cd "$(dirname "$0")/.."

# shellcheck source=checks/lib/programs.sh
. checks/lib/programs.sh

run=${1:-1000000}
turns=5
program=crates/events_in_threads/out/events_in_threads

build_or_skip events_in_threads crates/{events_in_threads,page_bus,bus_rule,page_cell,flat_machine,rv64i_step,rv64i_decode,serial_timer,ram_block}/src

for pages in one own; do
    for vcpus in 1 2 4 8; do
        start=$(median_time "$turns" "$program" "$vcpus" 1 "$pages")
        all=$(median_time "$turns" "$program" "$vcpus" "$run" "$pages")
        echo "$pages page, $vcpus vCPUs: $((vcpus * run / (all - start))) thousand events a second"
    done
done
