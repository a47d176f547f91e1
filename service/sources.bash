#!/usr/bin/env bash
# What service/feed and service/earlier-lines know of a boot's log and trace.
#
# usage: source sources.bash || exit, after files.bash, with the folder of the scripts in `here`
# shellcheck shell=bash
# shellcheck disable=SC2034,SC2154
program=${RASD:-/usr/libexec/rasd/rasd}
traces=${RASD_TRACE:-/var/lib/rasd-trace}
# A line later than any: it ends the last report of a complete log.
log_end='[999999999999.000000] the end'
# The trace's filter gets this word if each event of EDAC's drivers is an error: service/prepare has found out.
drivers=()
[[ ${DRIVERS-} != edac ]] || drivers=(edac)

# Sets trace to the file of a boot's trace, or to nothing, checks to the time of the boot, in microseconds, from which it has
# machine checks, and reports to the time from which it has the firmware's memory errors: - if it never has them.
find_trace() {
    local found
    trace='' checks=- reports=-
    has "$traces/trace.$1" || return 0
    found=$(awk -f "$here/stamp.awk" -f "$here/since.awk" -- "$traces/trace.$1") || found=''
    read -r checks reports <<<"$found"
    [[ -n $reports ]] || fail "$traces/trace.$1 can't be read"
    trace=$traces/trace.$1
}

# Sets place and known to where a boot's number begins: a cursor of journalctl, and a number of lines of the trace.
find_begin() {
    place=${1%%,*} known=0
    [[ $1 != *,* ]] || known=${1##*,}
}

# Runs the log's filter. Without MCG_CAP an error of the log has no page, but each event of a trace has the register.
counted() {
    if [[ -n ${MCG_CAP-} || -z $trace ]]; then
        "$@"
    else
        "$@" | awk '!/^bank /'
    fi
}
