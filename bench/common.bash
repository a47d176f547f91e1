# shellcheck shell=bash
# The common parts of this folder's scripts. A script has its usage in its second line.
#
# The counterparts in C are built each time. All files are in a temporary folder, in memory if possible, where a flush costs
# nothing.
set -euo pipefail
shopt -s inherit_errexit
export LC_ALL=C
bench=$(dirname -- "$(readlink -f -- "${BASH_SOURCE[0]}")")

# Reads a script's arguments, PROGRAM [full], and enters a temporary folder.
begin() {
    [[ $# -ge 1 && $# -le 2 && -x $1 && ${2-full} == full ]] || {
        sed -n '2s/^# //p' "$0" >&2
        exit 2
    }
    # It makes the texts.
    have mawk || exit 0
    program=$(readlink -f -- "$1")
    export full=${2-}
    local in=/dev/shm
    [[ -d $in && -w $in ]] || in=${TMPDIR:-/tmp}
    room=$(mktemp -d -p "$in")
    # shellcheck disable=SC2064
    trap "rm -rf -- '$room'" EXIT
    export ACCOUNTS=${ACCOUNTS-$room}
    mkdir -- "$room/work"
    cd -- "$room/work"
}

say_skipped() {
    echo "skipped: $*" >&2
}

# Whether all tools are installed; says which one isn't.
have() {
    local tool
    for tool; do
        command -v "$tool" >/dev/null || {
            say_skipped "what needs $tool, which isn't here"
            return 1
        }
    done
}

# Builds counterparts; slowsync is a library.
build() {
    local name how
    for name; do
        how=(-o "$room/$name")
        [[ $name != slowsync ]] || how=(-shared -fPIC -o "$room/slowsync.so")
        cc -O2 -Wall -Wextra -Wpedantic "${how[@]}" "$bench/$name.c"
    done
}

# Prints lines of a kind: KIND COUNT [BOOT]
lines() {
    local block record table
    block=$(sed -n '/^ghes/{s/.* //p;q}' "$bench/../demo/pcie.script")
    record=$(od -An -v -tx1 -N353 "$bench/../demo/firmware.records" | tr -d ' \n')
    table=$(grep '^erst' "$bench/../service/store.script")
    mawk -v kind="$1" -v count="$2" -v boot="${3-2}" -v block="$block" -v record="$record" -v table="$table" \
        -f "$bench/lines.awk"
}

# Empties the work folder except for the journal of an account with so many names, of one page or each with a page of its own,
# which rasd makes once: NAMES [new|paged]
over() {
    local kind=${2-new}
    local kept=$ACCOUNTS/$kind-$1
    if [[ ! -d $kept ]]; then
        mkdir -- "$kept"
        { lines modules 1 && lines "$kind" "$1" 1; } | (cd -- "$kept" && "$program" run >/dev/null)
    fi
    rm -f -- "$room"/work/*
    cp -- "$kept"/* "$room/work"
}

# Prints a column of a file of rounds, the least number first; column 0 has zeros.
ranked() {
    if [[ $2 == 0 ]]; then echo 0; else cut -d ' ' -f "$2" -- "$1" | sort -g; fi
}
best() { ranked "$@" | sed -n 1p; }
middle() { ranked "$@" | mawk '{ them[NR] = $1 } END { print them[int(NR / 2) + 1] }'; }

# Prints the ratio of two files of rounds, of a column less another one: FILE FILE COLUMN COLUMN. First that of the best
# rounds, then, in brackets, that of the middle ones; but - if one is more than half again as much as the other, since neither says
# anything then.
ratio() {
    local how
    for how in best middle; do
        echo "$("$how" "$1" "$3") $("$how" "$1" "$4") $("$how" "$2" "$3") $("$how" "$2" "$4")"
    done | mawk '
        { told[NR] = $1 > $2 && $3 > $4 ? ($1 - $2) / ($3 - $4) : 0 }
        END {
            if (told[1] > 0 && told[2] > 0 && told[1] <= 1.5 * told[2] && told[2] <= 1.5 * told[1])
                printf "%.2f (%.2f)\n", told[1], told[2]
            else print "-"
        }'
}

# Prints a number with commas between its thousands.
grouped() {
    sed ':more;s/\B[0-9]\{3\}\>/,&/;tmore' <<<"$1"
}
