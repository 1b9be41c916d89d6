#!/usr/bin/env bash
# Boots a guest of User Mode Linux with the bench behind its buses, and has it do one trial (trials/linux/run.sh).
#
#   trials/linux/boot.sh FOLDER TRIAL [WORD ..]
#
# FOLDER is made, and keeps what the trial said (`said`), its status (`ended`) and the kernel's messages (`dmesg`). CACHE
# names the folder that build.sh filled, PMB the built program, PMHOST_LIBRARY the library of the package, and
# PLAIN_PART=1 has the plain model alone behind the buses; SECONDS_AT_MOST how long a guest may take (1800). VCD=1 keeps
# the wire's waveform. The status is 0 where the trial's was 0.
set -u
case " $* " in *" --help "* | *" -h "*) sed -n '2,/^[^#]/s/^# \{0,1\}//p' "$0"; exit 0 ;; esac
[ $# -ge 2 ] || { echo "boot.sh: give a folder and a trial; --help shows more" >&2; exit 2; }
here=$(cd "$(dirname "$0")" && pwd)
folder=$(realpath -m "$1"); shift
trial=$(IFS=,; echo "$*")
case $here$folder$CACHE$PMB$PMHOST_LIBRARY in
    *[[:space:],]*) echo "boot.sh: the kernel's command line takes no path with a blank or a comma: $here, $folder, $CACHE, $PMB, $PMHOST_LIBRARY" >&2; exit 2 ;;
esac
mkdir -p "$folder" || exit 2
rm -f "$folder"/{i2c.sock,wire.sock,held,said,ended}
PLAIN_PART=${PLAIN_PART-} python3 "$here/bench.py" "$folder" ${VCD:+--vcd} > "$folder/bench" 2>&1 &
bench=$! guest=
# User Mode Linux makes a session of its own, whose number it keeps in a file while it runs.
end() {
    local session
    if [ -n "$guest" ]; then
        session=$(cat "$folder/uml/guest/pid" 2> /dev/null)
        [ -z "$session" ] || kill -KILL -- "-$session" 2> /dev/null
        kill "$guest" 2> /dev/null
    fi
    kill "$bench" 2> /dev/null
    wait 2> /dev/null
    rm -rf "$folder/i2c.sock" "$folder/wire.sock" "$folder/held" "$folder/uml"
}
trap end EXIT
trap 'exit 130' INT TERM HUP
for _ in $(seq 200); do
    [ -S "$folder/i2c.sock" ] && [ -S "$folder/wire.sock" ] && break
    sleep 0.05
done
[ -S "$folder/wire.sock" ] || { echo "boot.sh: the bench didn't start:" >&2; cat "$folder/bench" >&2; exit 2; }
memory=$folder
[ -w /dev/shm ] && memory=/dev/shm
TMPDIR=$memory timeout -k 5 "${SECONDS_AT_MOST:-1800}" "$CACHE/kernel/linux" mem=192M quiet \
    "virtio_uml.device=$folder/i2c.sock:34" "virtio_uml.device=$folder/wire.sock:41" \
    root=/dev/root rootfstype=hostfs rootflags=/ ro "init=$here/guest.sh" "uml_dir=$folder/uml/" umid=guest \
    con=null con0=fd:0,fd:1 "ROOT=$(cd "$here/../.." && pwd)" "FOLDER=$folder" "CACHE=$CACHE" "TRIAL=$trial" \
    "PMB=$PMB" "PMHOST_LIBRARY=$PMHOST_LIBRARY" > "$folder/console" 2>&1 < /dev/null &
guest=$!
# A bench that ends leaves its guest no bus: the guest is ended with it.
wait -n "$guest" "$bench"
for _ in $(seq 100); do
    kill -0 "$guest" 2> /dev/null || break
    sleep 0.1
done
kill -0 "$guest" 2> /dev/null && { echo "boot.sh: the bench ended before its guest:" >&2; tail -5 "$folder/bench" >&2; exit 1; }
[ "$(cat "$folder/ended" 2> /dev/null)" = "status 0" ] && [ ! -s "$folder/bench" ]
