#!/usr/bin/env bash
# How long an order takes over the static library of crates/pm_host_c beside plain code, the stack of its calls as
# they ran and of the deepest call as the compiler finds it, how many instructions an order and a course to a voltage
# take by valgrind's callgrind, how big the archive is and what it wants.
#
#   bench/c_order.sh [--archive FILE]
set -eu
case " $* " in *" --help "* | *" -h "*) sed -n '2,/^[^#]/s/^# \{0,1\}//p' "$0"; exit 0 ;; esac
case "$#${1-}" in
    0) archive='' ;;
    2--archive)
        [ -f "$2" ] || { echo "c_order.sh: no file at $2: give --archive FILE, a libpm_host_c.a" >&2; exit 2; }
        archive=$(realpath "$2") ;;
    *) echo "c_order.sh: '$*': give --archive FILE, a libpm_host_c.a, or nothing" >&2; exit 2 ;;
esac
cd "$(dirname "$0")/.."
folder=$(mktemp -d)
trap 'rm -rf "$folder"' EXIT
if [ -z "$archive" ]; then
    (cd crates/pm_host_c && rt lib --backend rattle > "$folder/log" 2>&1) || { tail -20 "$folder/log"; exit 1; }
    grep -o 'frame-bytes=[0-9]* stack-bytes=[0-9]*' "$folder/log"
    archive=crates/pm_host_c/out/libpm_host_c.a
fi
gcc -O2 -Wno-unused-result -Icrates/pm_host_c/include bench/c_order.c "$archive" -o "$folder/bench"
"$folder/bench"
# counted WHAT ORDERS: the instructions of a program that gives so many
counted() { valgrind --tool=callgrind --callgrind-out-file=/dev/null "$folder/bench" "$1" linear "$2" 2>&1 | sed -n 's/.*Collected : //p'; }
# for_one WHAT: the instructions for one
for_one() { echo $((($(counted "$1" 2500) - $(counted "$1" 500) + 1000) / 2000)); }
if command -v valgrind > /dev/null; then
    echo "an order: $(for_one loop) instructions; a course to a voltage, with all that it reads: $(for_one set) instructions"
else
    echo "valgrind: not on this machine, so instructions aren't counted"
fi
size "$archive" | awk 'NR == 2 {print "archive: " $1 " bytes of text, " $2 + $3 " of data"}'
echo "symbols that it wants: $(nm -u "$archive" | grep -c ' U ' || true)"
gcc -O2 -Wno-unused-result -Icrates/pm_host_c/include -Wl,--gc-sections examples/c/order.c "$archive" -o "$folder/order"
size "$folder/order" | awk 'NR == 2 {print "a linked order: " $1 " bytes of text"}'
