#!/usr/bin/env bash
# Two hosts on the same part, under the same faults: the kernel's driver `ltc2972` and pmhost carry the same eight orders
# out, with one fault at every transfer in turn, in guests of User Mode Linux. Prints a table of all runs, and the
# sharpest case as a listing.
#
#   trials/linux/two_hosts.sh [OPTIONS]
#
# The options are those of run.sh, and so is KEEP. The part is a model of two outputs with the registers that the driver asks for, and
# the faults are chosen: these are no failure rates of boards. The lines of the table and of the listing have to be those of
# trials/linux/results/two_hosts.txt: the last line tells how many are. A line that is new, one that lacks, and a guest that didn't
# end well failed.
set -u
case " $* " in *" --help "* | *" -h "*) sed -n '2,/^[^#]/s/^# \{0,1\}//p' "$0"; exit 0 ;; esac
here=$(cd "$(dirname "$0")" && pwd)
root=$(cd "$here/../.." && pwd)
. "$here/start.sh"
start "$@"
for path in limit regulator polled; do trial "$path" kernel_driver "$path"; done
trial ours our_host 0
trial sharpest sharpest
wait
# The names of the paths, as the table tells them.
told() {
    sed -e 's/^limit|/ltc2972, in*_max by hwmon|/' -e 's/^regulator|/ltc2972, regulator|/' \
        -e 's/^polled|/ltc2972, regulator, polled|/' "$work/$1/said"
}
{
    echo "Linux $(make -s -C "$CACHE/linux-source-6.1" ARCH=um O="$CACHE/kernel" kernelrelease)"
    row() { printf '%-26s %-7s %9s %7s %9s %4s  %-12s %-15s %s\n' "$@"; }
    row host "reads" transfers restart "not taken" lost "wrong output" "told as success" "read as ordered"
    for each in limit regulator polled ours; do
        told $each | while IFS='|' read -r host reads transfers wrong total well shown; do
            read -r a b c <<< "$wrong"
            row "$host" "$reads" "$transfers" "$a" "$b" "$c" "$total" "$well" "$shown"
        done
    done
    echo "The sharpest case:"
    grep -v passed "$work/sharpest/said"
} > "$work/table"
cat "$work/table"
[ -z "${KEEP-}" ] || cp -r "$work" "$KEEP"
. "$root/tools/tally.sh"
for each in limit regulator polled ours sharpest; do
    ended=$(cat "$work/$each/ended" 2> /dev/null)
    [ "$ended" = "status 0" ] || { tell 1; echo "$each: FAILED (${ended:-no end})"; why $each; }
done
# differing WORDS FILE OTHER: the lines of a file that the other one lacks
differing() {
    local line
    while IFS= read -r line; do tell 1; echo "$1: $line"; done < <(grep -vxFf "$3" "$2")
}
differing "not as before" "$work/table" "$here/results/two_hosts.txt"
differing "no longer there" "$here/results/two_hosts.txt" "$work/table"
passed=$(grep -cxFf "$here/results/two_hosts.txt" "$work/table")
end_tally
