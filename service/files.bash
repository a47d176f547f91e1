#!/usr/bin/env bash
# Reads and replaces the small files of state in the account's folder, for service/feed and what it calls.
#
# usage: source files.bash || exit
#
# A call that fails is never taken for "there is nothing": then the script ends with status 75, and the next start tries again.
# If bash can make no pipe, `$(..)` is empty and its status 0: so what must not be taken for empty ends with a mark.
# It ends with status 1, by `refuse`, for what no restart mends.
# shellcheck shell=bash
script_name=${0##*/}
# Perl takes a script that it can't read for an empty one, which does nothing and ends with status 0. `require` doesn't.
# shellcheck disable=SC2034
perl_script=(perl -e 'require shift')
# So does bash, if it can't look at the script that it has opened. `source` says so, and a script that this calls ends with `exit`,
# or with status 0.
# shellcheck disable=SC2016,SC2034
bash_script=(bash -c 'source "$0" "$@" || exit 75')

refuse() {
    echo "$script_name: $*" >&2
    exit 1
}
fail() {
    echo "$script_name: $*" >&2
    exit 75
}

# Whether a file is there. `-e` is also false after a failed call, so then the folder's listing says it: its last line shows that
# it is whole.
has() {
    local folder=. names
    [[ ! -e $1 && ! -L $1 ]] || return 0
    [[ $1 != */* ]] || folder=${1%/*}
    names=$(ls -A -- "${folder:-/}" 2>/dev/null && echo /)
    if [[ $names != */ ]]; then
        [[ ! -e ${folder:-/} ]] || fail "$folder can't be listed"
        return 1
    fi
    [[ -z ${1##*/} || $'\n'$names == *$'\n'"${1##*/}"$'\n'* ]]
}

# Ends the script unless a file is of a kind, `-f` or `-p`: a false test may also be a failed call, so it is of another kind only
# if that test is true.
need_kind() {
    local kind
    ! test "$1" "$2" || return 0
    for kind in -f -p -d -S -b -c; do
        [[ $kind == "$1" ]] || ! test "$kind" "$2" || refuse "$2 isn't a $3"
    done
    fail "$2 can't be read"
}

# Sets text to what a file has, with its line feeds. It opens only a regular file: to open a FIFO could wait without end.
read_file() {
    need_kind -f "$1" "regular file"
    text=$(cat -- "$1" && echo .)
    # Without the point the text isn't whole.
    [[ $text == *. ]] || fail "$1 can't be read"
    text=${text%.}
}

# Replaces a file whole by a text, on the disk too: a crash leaves the old one or the new one.
keep_file() {
    local folder=.
    [[ $1 != */* ]] || folder=${1%/*}
    # What an earlier start left there is no link or FIFO afterwards.
    if ! { rm -f -- "$1.new" && (set -C && printf %s "$2" >"$1.new") && sync -- "$1.new" && mv -T -- "$1.new" "$1" &&
        sync -- "${folder:-/}"; }; then
        fail "$1 can't be written"
    fi
}

# Counts in a file the starts that something failed in. Returns 1 at the seventh, and begins anew: it may fail for good.
tries_again() {
    text=''
    ! has "$1" || read_file "$1"
    if ((${#text} >= 6)); then
        rm -f -- "$1"
        return 1
    fi
    keep_file "$1" "${text}x"
}
