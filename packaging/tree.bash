#!/usr/bin/env bash
# What the builds of packages have in common: a version, and a tree with this clone's files and the program.
#
# usage: source packaging/tree.bash, as packaging/deb/build and packaging/rpm/build do, with a function `refuse`
#
# The same commit and the same program give the same bytes, since all dates are the commit's. If the commit has the tag of
# VERSION, as v1.2.3, that is the version. Otherwise the version sorts before it and has the commit's date and hash, and
# `+changed` if the clone's files aren't the commit's.
# shellcheck disable=SC2034
set -euo pipefail
export LC_ALL=C TZ=UTC
umask 022
top=$(dirname -- "$(dirname -- "$(readlink -f -- "${BASH_SOURCE[0]}")")")
SOURCE_DATE_EPOCH=$(git -C "$top" log -1 --format=%ct)
export SOURCE_DATE_EPOCH
commit=$(git -C "$top" rev-parse --short=12 HEAD)
number=$(<"$top/VERSION")
version=$number
if ! git -C "$top" tag --points-at HEAD | grep -xF "v$number" >/dev/null; then
    version=$number~$(date -d "@$SOURCE_DATE_EPOCH" +%Y%m%d.%H%M).g$commit
fi
git -C "$top" diff --quiet HEAD || version+=+changed

# A server gets a proved program: proved here, or by the gate, which compared it with the release's.
check_program() {
    [[ -f $1 && -x $1 ]] || refuse "$1 isn't a program"
    ! cmp -s -- "$1" "$top/crates/ras_cli/out/ras_cli" && ! cmp -s -- "$1" "$top/packaging/prebuilt/rasd" || return 0
    [[ ${RASD_UNPROVED-} == 1 ]] || refuse "$1 isn't the program that ./rasd build proved here; RASD_UNPROVED=1 packages it all the same"
    version+=+unproved
}

# Makes the folder TREE: PROGRAM TREE. The package names its commit, so it has no files that aren't committed; for changed files
# the version has `+changed`.
make_tree() {
    local parts=(README.md NEWS.md demo docs man monitor packaging/README.md packaging/deb service) left_out
    left_out=$(git -C "$top" ls-files --others --exclude-standard -- "${parts[@]}" | paste -sd ' ')
    [[ -z $left_out ]] || echo "${0##*packaging/}: left out, since git doesn't have them: $left_out" >&2
    mkdir "$2"
    git -C "$top" ls-files -z -- "${parts[@]}" | tar -C "$top" --null -T - -c | tar -C "$2" -x
    cp -r -- "$2/packaging/deb/debian" "$2/debian"
    install -m 755 -- "$1" "$2/program"
}
