#!/usr/bin/env bash
# Plants bugs into copies of the package, each of which a trial over a whole Linux must find: a short count that is taken for
# success, once by `pmhost` itself and once by i2ctransfer below it; and an address that is another part's. Each trial has to pass without the bug first. Prints what found them.
#
#   trials/linux/must_fail.sh [OPTIONS]
#
# The options are those of run.sh. The last line tells how many bugs were found and how many weren't.
set -u
case " $* " in *" --help "* | *" -h "*) sed -n '2,/^[^#]/s/^# \{0,1\}//p' "$0"; exit 0 ;; esac
here=$(cd "$(dirname "$0")" && pwd)
root=$(cd "$here/../.." && pwd)
. "$here/start.sh"
start "$@"
# plant NAME FILE OLD NEW: a copy of what the trials read, with one text changed, which stands there once.
plant() {
    mkdir -p "$work/$1/tree"
    (cd "$root" && cp -r --parents tools trials python docs examples crates/pm_host_c/include "$work/$1/tree")
    python3 - "$work/$1/tree/$2" "$3" "$4" << 'END' || refuse "$1: the text to change doesn't stand once in $2"
import sys
path, old, new = sys.argv[1:]
text = open(path, encoding="utf-8").read()
open(path, "w", encoding="utf-8").write(text.replace(old, new))
sys.exit(text.count(old) != 1)
END
}
# begun TREE GUEST TRIAL BUS [WORD ..]: the trial on a tree; what its guest leaves stands in GUEST, and what boot.sh says in GUEST.boot.
begun() {
    local tree=$1 guest=$2; shift 2
    while [ "$(jobs -rp | wc -l)" -ge "$at_once" ]; do wait -n; done
    "$tree/trials/linux/boot.sh" "$guest" "$@" > "$guest.boot" 2>&1 &
    guests+=($!)
}
# tried NAME TRIAL BUS [WORD ..]: the trial without the bug, and on the copy.
tried() {
    local name=$1; shift
    begun "$root" "$work/$name/sound" "$@"
    begun "$work/$name/tree" "$work/$name/guest" "$@"
}
plant package python/src/pmhost/bus/linux.py "if went != len(messages):" "if went < 0:"
tried package rows 0
plant frames python/src/pmhost/capture/i2ctransfer.py "if ran.returncode or ran.stderr or len(back) != wanted or BYTES.sub(\"\", ran.stdout).strip():" \
    "if ran.returncode:"
tried frames commands 0
plant address python/src/pmhost/bus/linux.py "return self._send(self.address, " "return self._send(min(self.address, 0x59), "
tried address several 0 7 short
names="package frames address"
wait
. "$root/tools/tally.sh"
for name in $names; do
    if [ "$(cat "$work/$name/sound/ended" 2> /dev/null)" != "status 0" ]; then
        tell 1; echo "$name: NOT TRIED, the trial fails without the bug:"; tail -n 5 "$work/$name/sound.boot" "$work/$name/sound/said"
    elif grep -qE ' passed, [1-9][0-9]* failed$' "$work/$name/guest/said" 2> /dev/null; then
        tell 0; echo "$name: found"
        sed "s/^/    /; s/\(.\{150\}\).*/\1 ../" "$work/$name/guest/said"
    else
        tell 1; echo "$name: NOT FOUND"; tail -n 5 "$work/$name/guest.boot" "$work/$name/guest/said"
    fi
done
end_tally
