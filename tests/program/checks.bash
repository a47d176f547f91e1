# Checks for tests written in bash, with the numbers of those that passed and failed.
# shellcheck shell=bash
passed=0 failed=0

# Whether a command succeeds; otherwise prints what it printed.
check() {
    local what=$1 told
    shift
    if told=$("$@" 2>&1); then
        passed=$((passed + 1))
    else
        failed=$((failed + 1))
        printf 'failed: %s\n%s\n' "$what" "$told"
    fi
}
same() {
    [[ $1 == "$2" ]] || {
        printf '%s\n  in place of:\n%s\n' "$1" "$2"
        return 1
    }
}
# Whether a command's output matches a pattern.
says() {
    local words=$1 printed
    shift
    printed=$("$@" 2>&1)
    grep -q -e "$words" <<<"$printed" || {
        echo "$printed"
        return 1
    }
}
# Runs a command in a root over this one, in memory, which goes away with it. `room` is a folder that has the folder root, `top`
# the clone's.
# shellcheck disable=SC2016,SC2154
in_root() {
    unshare --mount bash -eu -c '
        mount -t tmpfs rasd "$1/root"
        cd "$1/root"
        mkdir upper work root
        mount -t overlay rasd -o lowerdir=/,upperdir=upper,workdir=work root
        for path in /dev /sys "$1" "$2"; do
            mkdir -p "root$path"
            mount --rbind "$path" "root$path"
        done
        mount -t proc proc root/proc
        # The package asks nothing of the kernel of this machine.
        for path in /sys/kernel/tracing /sys/devices/system/machinecheck; do
            [ ! -d "root$path" ] || mount -t tmpfs rasd "root$path"
        done
        exec chroot root "${@:3}"
    ' - "$room" "$top" "$@"
}
