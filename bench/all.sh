#!/usr/bin/env bash
# Everything that is measured of this project, by one command after a build: the instructions of three texts of 1 MiB and
# of an order over the C library and over pm_driver; the time of these texts to a pipe, a file and nothing, in runs that
# alternate with those of an earlier program; system calls and page faults; how time and memory grow from 1/4 to 1 MiB; what
# the driver, limits and bands take, each judged by its bound; and the stack and the sizes of the C library. It ends in
# three tables, to be pasted into a page, names what this machine lacks, and has status 1 where a part of it failed or a bound didn't
# hold.
#
#   bench/all.sh [--earlier PMB] [--earlier-archive FILE] [--rounds N]
#
# It runs the built program, or the one that the environment variable PMB names. `--earlier` is the program of an earlier
# commit, and `--earlier-archive` its libpm_host_c.a. What is built on the way is proved on the way: with checks kept in out/
# that takes some minutes. Where rt isn't there, no order is counted.
set -eu
case " $* " in *" --help "* | *" -h "*) sed -n '2,/^[^#]/s/^# \{0,1\}//p' "$0"; exit 0 ;; esac
earlier=() earlier_archive=() rounds=()
refuse() { echo "all.sh: $1: give [--earlier PMB] [--earlier-archive FILE] [--rounds N]; --help says more" >&2; exit 2; }
while [ $# != 0 ]; do
    case "$1 ${2:+.}" in
        "--earlier .") found=$(command -v "$2") || refuse "no program at $2"; earlier=(--earlier "$(realpath "$found")") ;;
        "--earlier-archive .") [ -f "$2" ] || refuse "no file at $2"; earlier_archive=(--earlier-archive "$(realpath "$2")") ;;
        "--rounds .") case $2 in *[!0-9]* | 0) refuse "$1 $2" ;; esac; rounds=(--rounds "$2") ;;
        *) refuse "$1" ;;
    esac
    shift 2
done
PMB=$(python3 "$(dirname "$0")/../tools/program.py")
export PMB
cd "$(dirname "$0")/.."
folder=$(mktemp -d)
trap 'rm -rf "$folder"' EXIT
failed=''
: > "$folder/lacks"

# part NAME WORDS ..: what it prints goes into the file of that name; what it says besides is shown at the end, and so is that it failed
part() {
    local name=$1
    shift
    "$@" >> "$folder/$name" 2>> "$folder/lacks" || failed="$failed $1"
}

# made WORDS ..: whether a build does well; where it doesn't, the end of what it says is shown at the end
made() {
    "$@" > "$folder/log" 2>&1 && return
    failed="$failed $1"
    tail -5 "$folder/log" >> "$folder/lacks"
    return 1
}

# archive: the library for C, proved and built
archive() { (cd crates/pm_host_c && rt lib --backend rattle); }

archive=() driver=()
if ! command -v rt > /dev/null; then
    echo "lacks: rt, so an order over pm_host_c and over pm_driver isn't measured" >> "$folder/lacks"
else
    ! made archive || archive=(--archive crates/pm_host_c/out/libpm_host_c.a)
    ! made bench/driver/build.sh orders "$folder/driver" || driver=(--driver "$folder/driver")
fi
part rows bench/instructions.py "${archive[@]}" "${driver[@]}" "${earlier[@]}" "${earlier_archive[@]}"
part rows bench/times.py "${earlier[@]}" "${rounds[@]}"
part growth bench/growth.py
if ! command -v gcc > /dev/null || ! command -v valgrind > /dev/null; then
    echo "lacks: gcc or valgrind, so what the driver and limits cost isn't measured" >> "$folder/lacks"
elif [ ${#archive[@]} != 0 ] && [ ${#driver[@]} != 0 ]; then
    part costs bench/costs.py "${archive[@]}" "${driver[@]}"
fi
if command -v gcc > /dev/null && [ ${#archive[@]} != 0 ]; then part c_order bench/c_order.sh "${archive[@]}"; fi

echo "Measured on $(date -u +%F) at commit $(git rev-parse --short HEAD 2> /dev/null || echo unknown), $(uname -m), $(nproc) processors."
echo
printf '| what | unit | this | earlier | ratio |\n|---|---|---|---|---|\n'
cat "$folder/rows"
for each in growth costs c_order; do
    [ ! -s "$folder/$each" ] || { echo; cat "$folder/$each"; }
done
cat "$folder/lacks" >&2
[ -z "$failed" ] || { echo "all.sh: FAILED:$failed" >&2; exit 1; }
