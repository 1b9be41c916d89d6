#!/usr/bin/env bash
# Builds a program of this folder, orders or bands, whose instructions bench/instructions.py and bench/costs.py count, in a
# copy of the crates that it stands on. With checks of these kept in their out/ that takes a minute or two, otherwise much
# more.
#
#   bench/driver/build.sh NAME FILE
set -eu
case " $* " in *" --help "* | *" -h "*) sed -n '2,/^[^#]/s/^# \{0,1\}//p' "$0"; exit 0 ;; esac
[ $# = 2 ] || { echo "bench/driver/build.sh NAME FILE: which program, and where is it to go?" >&2; exit 2; }
name=$1
made=$(realpath -m "$2")
cd "$(dirname "$0")/../.."
[ -f "bench/driver/$name.rattle" ] || { echo "bench/driver/build.sh: no program $name" >&2; exit 2; }
folder=$(mktemp -d)
trap 'rm -rf "$folder"' EXIT

# copied CRATE: this crate and those below it stand in the copy; what has no folder is the kit's
copied() {
    [ -d "crates/$1" ] && [ ! -d "$folder/crates/$1" ] || return 0
    cp -a "crates/$1" "$folder/crates/"
    grep "^$1:" crates.txt >> "$folder/crates.txt"
    local below
    below=$(sed -n "s/^$1://p" crates.txt)
    for crate in $below; do copied "$crate"; done
}

below_bench="pm_driver pm_driver pm_world pm_limits pm_device pm_host pm_frame pm_table"
mkdir -p "$folder/crates/driver_bench/src"
echo "driver_bench: $below_bench" > "$folder/crates.txt"
for crate in $below_bench; do copied "$crate"; done
cp "bench/driver/$name.rattle" "$folder/crates/driver_bench/src/main.rt"
(cd "$folder/crates/driver_bench" && rt run < /dev/null > "$folder/log" 2>&1) || { tail -20 "$folder/log"; exit 1; }
cp "$folder/crates/driver_bench/out/driver_bench" "$made"
