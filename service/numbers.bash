#!/usr/bin/env bash
# Keeps the account of a boot with many errors from getting full, for service/feed.
#
# usage: source numbers.bash || exit
#
# An account has room for 200,000 names, and each start reads all that belongs to the boot's number. So once log or trace have
# more than PIECE_LINES reports for it, or the account has ALMOST_FULL names, the rest of the boot gets the next number, and the names
# of the numbers before are retired, as docs/OPERATOR.md says; sums and pages stay. All errors before that place are acknowledged
# then, and none after it is.
#
# A place is a time of the kernel's, since log and trace have an error at one time. The file `fed` has the boot's number, its
# name, and the time before which all is that was given under the number: nothing yet (0), or - if errors were given as they came.
# shellcheck shell=bash
# shellcheck disable=SC2034,SC2154
almost_full=${ALMOST_FULL:-90000}
piece_lines=${PIECE_LINES:-40000}
# A report in a log begins so.
first_line='Machine Check|Hardware error from APEI'

# Sets count to the number of names in the account.
count_names() {
    local last
    last=$("$program" report names | tail -n 1) || fail "the account can't be read: $last"
    [[ $last =~ \ names=([0-9]+)$ ]] || fail "the account can't be read: $last"
    count=${BASH_REMATCH[1]}
}

# At a start that finds the account almost full, the names of boots that are read to their end are retired first.
make_room() {
    local first=$boot
    count_names
    ((count >= almost_full)) || return 0
    text=''
    ! has boots-before || read_file boots-before
    [[ -z $text ]] || read -r first _ <<<"$text"
    echo "feed: the account has $count names, so the names of boots below number $first are retired" >&2
    echo "retire $first"
    await_all
    count_names
}

# The times of the log's entries for this number: words for journalctl.
entry_times() {
    journalctl -q -k -b "${boot_id//-/}" ${place:+"--after-cursor=$place"} -o export --output-fields=_SOURCE_MONOTONIC_TIMESTAMP "$@"
}

trace_lines() {
    [[ -z $trace ]] || tail -n "+$((known + 1))" -- "$trace"
}

# Sets until to the time of the first report of this number that has too many before it, or to nothing.
find_end() {
    local logged traced
    # journalctl's status is 1 if no entry has the pattern.
    logged=$(entry_times -g "$first_line" | awk -v most="$piece_lines" -f "$here/stamp.awk" -f "$here/many.awk" || (($? == 1)) &&
        echo .)
    [[ $logged == *. ]] || fail "the log can't be read"
    traced=$(trace_lines | awk -v most="$piece_lines" -f "$here/stamp.awk" -f "$here/many.awk" && echo .)
    [[ $traced == *. ]] || fail "$trace can't be read"
    logged=${logged//[^0-9]/} traced=${traced//[^0-9]/}
    until=$logged
    [[ -z $traced || (-n $until && $until -le $traced) ]] || until=$traced
}

# Sets until to a time after all reports that there are, and waits until both log and trace have them.
find_last() {
    local logged traced
    logged=$(entry_times -n 1 | awk -f "$here/stamp.awk" -f "$here/last.awk") || logged=''
    [[ -n $logged ]] || fail "the log can't be read"
    traced=$(trace_lines | tail -n 99 | awk -f "$here/stamp.awk" -f "$here/last.awk") || traced=''
    [[ -n $traced ]] || fail "$trace can't be read"
    until=$(((logged > traced ? logged : traced) + 1))
    sleep "${RASD_LAG:-5}"
}

# Gives what log and trace have from before the time. Sets place and known to where they go on.
give_until() {
    local cursor=${ready%/*}/cursor until=$1 filter=("$program" lines log "$boot" "$cap" "$began" "$checks" "$reports") lines
    rm -f -- "$cursor" || fail "$cursor can't be removed"
    { printf '%s' "$slots" && "${perl_script[@]}" "$here/kernel-log" --settled "$cursor" --until "$until" -b "${boot_id//-/}" ${place:+"--after-cursor=$place"} &&
        echo "$log_end"; } | counted "${filter[@]}" || fail "the log can't be read"
    if [[ -n $trace ]]; then
        echo '# feed: trace' || fail "the lines can't be printed"
        { printf '%s' "$slots" && trace_lines | awk -v until="$until" -f "$here/stamp.awk" -f "$here/before.awk"; } |
            "$program" lines trace "$boot" "$cap" "$began" "${drivers[@]}" || fail "$trace can't be read"
        lines=$(trace_lines | awk -v until="$until" -f "$here/stamp.awk" -f "$here/before.awk" | wc -l) || lines=''
        [[ -n $lines ]] || fail "$trace can't be read"
        known=$((known + lines))
        echo "# feed: log $checks" || fail "the lines can't be printed"
    fi
    ! has "$cursor" || read -r place <"$cursor" || fail "$cursor can't be read"
}

# Gives the rest of this boot the next number, and retires the numbers before.
close_number() {
    count_names
    ask "$here/boot-number" --next "$place,$known"
    [[ $answer =~ ^[0-9]+$ ]] || fail "the rest of this boot gets no number"
    boot=$answer no_error="bank $answer 0 0 0 0 $cap 0 0 0 0"
    echo "# feed: number $boot"
    echo "feed: the account has $count names, so the errors of this boot from here on come under number $boot, and" \
        "the names of lower numbers are retired; sums and pages stay" >&2
    echo "retire $boot"
    await_all
}

# Sets given to the time before which all is that was given under this number, to 0, or to -.
find_given() {
    local number='' id='' time='' names
    given=0
    if has fed; then
        read_file fed
        read -r number id time <<<"$text"
    fi
    if [[ "$number $id" == "$boot $boot_id" && $time =~ ^(-|[1-9][0-9]*)$ ]]; then
        given=$time
    else
        # A version before this one may have given errors, or somebody may have removed the file.
        names=$("$program" report names) || fail "the account can't be read: $names"
        [[ $names == *' names='* ]] || fail "the account can't be read: $names"
        [[ ! $'\n'$names =~ $'\n'(bank|block)=0*$boot/ ]] || given=-
    fi
}

# While the number has too many reports, or the account too many names, gives them up to a place, and closes the number there.
catch_up() {
    local given until
    find_given
    count_names
    while :; do
        until=$given
        [[ $given =~ ^[1-9] ]] || find_end
        if [[ $given == - ]]; then
            # A start before this one may have given all that there is.
            [[ -z $until ]] && ((count < almost_full)) && return
            find_last
        fi
        [[ -n $until ]] || break
        keep_file fed "$boot $boot_id $until"$'\n'
        give_until "$until"
        await_all
        close_number
        given=0
    done
    keep_file fed "$boot $boot_id -"$'\n'
}
