#!/usr/bin/env bash
# Tries packaging/install.sh --uninstall: what an install puts is taken away again, and nothing else.
#
#   packaging/try_uninstall.sh FOLDER
#
# FOLDER is an installed tree, as the release's tarball unpacked: its programs and archives are installed anew, by the install.sh of a
# copy of this checkout, below a folder that holds a program, a page and an empty folder already. Each has to be there behind
# --uninstall, and nothing else. Needs gcc and python3. The last line says how many passed and failed.
set -u
case " $* " in *" --help "* | *" -h "*) sed -n '2,/^[^#]/s/^# \{0,1\}//p' "$0"; exit 0 ;; esac
[ $# = 1 ] && [ -f "$1/lib/libpmhost.a" ] || { echo "try_uninstall.sh: give a folder with bin/pmb and lib/libpmhost.a; --help says more" >&2; exit 2; }
built=$(realpath "$1")
cd "$(dirname "$0")/.."
. tools/tally.sh
work=$(mktemp -d)
trap 'rm -rf "$work"' EXIT
mkdir -p "$work/copy" "$work/archives" "$work/to/bin" "$work/to/share/man/man1" "$work/to/share/doc/other"
git ls-files -z | xargs -0 -r ls -d 2> /dev/null | tar -T - -c | tar -x -C "$work/copy"
cp "$built/lib/libpmhost.a" "$work/archives/libpm_host_c.a"
cp "$built/lib/libpmpart.a" "$work/archives/libpm_device_c.a"
touch "$work/to/bin/other" "$work/to/share/man/man1/other.1"

# put WORD ..: install.sh of the copy, with the programs of the folder
put() {
    DESTDIR=$work PMB=$built/bin/pmb PYTHONDONTWRITEBYTECODE=1 \
        bash "$work/copy/packaging/install.sh" /to "$@" > "$work/log" 2>&1
}

# said NAME STATUS
said() { tell "$2"; if [ "$2" = 0 ]; then echo "$1: ok"; else echo "$1: FAILED"; tail -5 "$work/log"; fi; }

all() { (cd "$work/to" && find . | sort); }
all > "$work/before"
for words in '' --library; do
    put $words --archives "$work/archives"
    said "installed ${words:-whole}" $?
    all > "$work/there"
    [ "$(grep -c . "$work/there")" -gt "$(($(grep -c . "$work/before") + 8))" ]
    said "something is there" $?
    put --uninstall
    said "uninstalled" $?
    all > "$work/after"
    diff "$work/before" "$work/after" > "$work/log"
    said "nothing is left, and nothing else is gone" $?
done
end_tally
