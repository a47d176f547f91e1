#!/usr/bin/env bash
# What processor the machine has, for service/prepare, service/setup and service/doctor, and whether EDAC's events count here.
#
# usage: source processor.bash || exit
#
# rasd reads machine-check banks as Intel's. On a processor of another vendor the event of EDAC's driver is the only account of a
# memory error. On Intel's it copies a machine check, and would count a second time.
# shellcheck shell=bash
# shellcheck disable=SC2034

# Sets vendor to what /proc/cpuinfo has, and model to family and model, as 6-85. If they can't be read, vendor is empty.
find_processor() {
    local found
    vendor='' model=-
    found=$(awk -F '[ \t]*: *' '/^$/ { exit } { of[$1] = $2 }
        END { print of["vendor_id"], of["cpu family"] "-" of["model"] }' "${RASD_CPUINFO:-/proc/cpuinfo}" 2>/dev/null) || return 1
    # A vendor's name may have blanks around it. Without a pipe for it nothing is found.
    [[ $found =~ ^([^ ]+)\ +([0-9]+-[0-9]+)$ ]] || return 1
    vendor=${BASH_REMATCH[1]} model=${BASH_REMATCH[2]}
}

# Whether each event of EDAC's drivers is an error. An unknown processor counts as Intel's.
counts_drivers() {
    [[ -n $vendor && $vendor != GenuineIntel ]]
}
