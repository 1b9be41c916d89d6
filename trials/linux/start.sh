# Sourced by run.sh, which tells the options, and two_hosts.sh: the build, and guests that do trials beside one another.

start() {
    cache=${HOME:-/tmp}/.cache/pmbus-linux is_plain= at_once=3
    archive=$root/crates/pm_host_c/out/libpm_host_c.a part=$root/crates/pm_device_c/out/libpm_device_c.a
    while [ $# -gt 0 ]; do
        case $1 in
            --cache) cache=${2-}; shift ;;
            --archive) archive=$(realpath -m "${2-}"); shift ;;
            --part) part=$(realpath -m "${2-}"); shift ;;
            --at-once) at_once=${2-}; shift ;;
            --plain) is_plain=1 ;;
            *) refuse "$1: there are --cache FOLDER, --archive FILE, --part FILE, --at-once N and --plain; --help shows more" ;;
        esac
        shift || refuse "give a value after the last option; --help shows more"
    done
    case $at_once in [1-9]) ;; *) refuse "--at-once $at_once: give a number from 1 to 9" ;; esac
    command -v python3 > /dev/null || refuse "no python3: install it"
    export PMB=${PMB-$root/crates/pmb/out/pmb}
    [ -x "$PMB" ] || refuse "no program at $PMB: build it by (cd crates/pmb && rt run -- replay < stdin), or set PMB to one"
    [ -f "$archive" ] || refuse "no $archive: build it by (cd crates/pm_host_c && rt lib), or give --archive FILE"
    [ -f "$part" ] || refuse "no $part: build it by (cd crates/pm_device_c && rt lib), or give --part FILE"
    ARCHIVE=$archive PART=$part "$here/build.sh" "$cache" || exit 2
    CACHE=$(realpath "$cache") PMHOST_LIBRARY=$(realpath "$cache")/libpmhost.so PLAIN_PART=$is_plain
    export CACHE PMHOST_LIBRARY PLAIN_PART
    work=$(mktemp -d "$CACHE/run.XXXXXX") || exit 2
    guests=()
    trap end EXIT
    trap 'exit 130' INT TERM HUP
}

refuse() { echo "$(basename "$0"): $1" >&2; exit 2; }

# Each guest ends with its own trap; then the folder goes.
end() {
    local each
    for each in "${guests[@]}"; do kill "$each" 2> /dev/null; done
    wait
    rm -rf "$work"
}

# trial NAME WORDS ..: a guest of its own, begun as soon as fewer than `at_once` run.
trial() {
    local name=$1; shift
    while [ "$(jobs -rp | wc -l)" -ge "$at_once" ]; do wait -n; done
    "$here/boot.sh" "$work/$name" "$@" > "$work/$name.boot" 2>&1 &
    guests+=($!)
}

# why NAME: what a trial without a result left.
why() { cat "$work/$1.boot" "$work/$1/bench" 2> /dev/null | tail -5; tail -5 "$work/$1/console" 2> /dev/null; }
