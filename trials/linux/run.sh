#!/usr/bin/env bash
# Tries the package over a whole Linux: a kernel of Debian as an ordinary process (User Mode Linux), its
# I2C core, i2c-dev, i2c-tools and PMBus drivers unchanged, and the model converter behind three kinds of adapter. It
# needs no hardware, no root and no KVM.
#
#   trials/linux/run.sh [OPTIONS]
#
#   --cache FOLDER    the folder of kernel and modules, some 2 GB, ~/.cache/pmbus-linux where it isn't given
#   --archive FILE    the library with the host, crates/pm_host_c/out/libpm_host_c.a where it isn't given
#   --part FILE       the library with the proved converter, crates/pm_device_c/out/libpm_device_c.a where it isn't given
#   --plain           the plain model alone behind the buses, and not the proved converter beside it
#   --at-once N       how many guests run at once, 3 where it isn't given
#
# The kernel is built the first time, in some five minutes. Packages of Debian 12: linux-source-6.1 flex bison bc gcc make
# xz-utils python3 i2c-tools, and sigrok-cli for the waveform. PMB names another program than the built one,
# KEEP a folder for what the guests left.
# Buses: 0 is i2c-virtio, whose failed transfers are short counts; 1 answers errors; 5 is bit-banged, i2c-gpio.
#
#   rows      every run of python/tests/data that is about a bus, on bus 0 by pmhost as a process
#   faults    eight orders under nine kinds of fault at each transfer, and 60 lists of two to four faults (SEED and LISTS in the environment)
#   commands  commands of the pages over i2c-tools and beside a driver, and i2cdetect over all addresses
#   captures  one run, told by pmhost's trace, the kernel's tracepoints and the waveform of the wires
#   several   two parts at two addresses and one behind a multiplexer, a pmhost for each at once, under each fault (SEED)
#   together  both hosts at once, a part that is unplugged, a pmhost that is killed
#
# What is wrong is printed, each trial's own last line, and last how many runs passed and failed in all.
set -u
case " $* " in *" --help "* | *" -h "*) sed -n '2,/^[^#]/s/^# \{0,1\}//p' "$0"; exit 0 ;; esac
here=$(cd "$(dirname "$0")" && pwd)
root=$(cd "$here/../.." && pwd)
. "$here/start.sh"
has_sigrok=$(command -v sigrok-cli)
[ -n "$has_sigrok" ] || echo "no sigrok-cli: the waveform isn't compared; install sigrok-cli"
command -v i2ctransfer > /dev/null || [ -x /usr/sbin/i2ctransfer ] || refuse "no i2ctransfer: install i2c-tools"
start "$@"
began=$(date +%s)
kinds="several faults rows commands captures together"
names=()
for kind in $kinds; do
    # The bit by bit one takes longest: it begins first.
    for bus in 5 0 1; do
        names+=("$kind$bus") more=()
        [ $kind$bus != rows0 ] || more=(processes)
        case $kind in
            faults) more=("${SEED-7}" "${LISTS-60}") ;;
            several) more=("${SEED-7}") ;;
        esac
        VCD=$([ $kind$bus = captures5 ] && echo 1) trial $kind$bus $kind $bus "${more[@]}"
    done
done
wait
[ -z "$has_sigrok" ] || python3 "$here/waveform.py" "$work/captures5" > "$work/waveform" 2>&1
. "$root/tools/tally.sh"
# count NAME FILE: what a trial said, and its last line's numbers.
count() {
    local last
    last=$(grep -E '^[0-9]+ passed, [0-9]+ failed$' "$2" 2> /dev/null | tail -1)
    grep -vE '^[0-9]+ passed, [0-9]+ failed$' "$2" 2> /dev/null
    if [ -z "$last" ]; then last="0 passed, 1 failed"; why "$1"; fi
    echo "$1: $last"
    passed=$((passed + ${last%% *}))
    last=${last#*, }
    failed=$((failed + ${last%% *}))
}
for name in "${names[@]}"; do count "$name" "$work/$name/said"; done
[ -z "$has_sigrok" ] || count waveform "$work/waveform"
[ -z "${KEEP-}" ] || cp -r "$work" "$KEEP"
echo "$(($(date +%s) - began)) s, $at_once guests at once"
end_tally
