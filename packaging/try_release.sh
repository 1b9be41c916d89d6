#!/usr/bin/env bash
# Tries what packaging/release.sh made in a clean root: a folder with Debian's packages alone, and no toolchain.
#
#   packaging/try_release.sh RELEASE ROOT [PART ..]
#
# RELEASE is the folder of the release. ROOT is a Debian 12 with python3 alone, which is made by hand, as root, and stays as it is:
#   debootstrap --variant=minbase --include=python3 bookworm ROOT
# What is tried stands in layers over it. In ROOT itself README's first example runs on python3 alone (its line for who has no rt), which
# needs no release: RELEASE may be - then, with PART alone. Then each block of the release's README
# runs as an ordinary user, in a layer of its own with the .deb and the packages of Debian that stand above the block, which apt-get fetches. Last,
# in one more layer, the .deb is installed, and the tarball unpacked, with no checkout beside them; C programs are compiled by pkg-config over
# both, manual pages are shown by man-db, and the .deb is removed, which leaves nothing; and on this machine install.sh --uninstall is tried
# with what the tarball has (packaging/try_uninstall.sh). PART is alone, whole, or the last word of a heading, as Rust; all if left out.
# The last line says how many passed and failed.
set -u
case " $* " in *" --help "* | *" -h "*) sed -n '2,/^[^#]/s/^# \{0,1\}//p' "$0"; exit 0 ;; esac
[ $# -ge 2 ] || { echo "try_release.sh: give RELEASE ROOT; --help says more" >&2; exit 2; }
release=$(realpath -m "$1") root=$(realpath -m "$2")
shift 2
parts=" $* "
# wanted PART
wanted() { case $parts in "  " | *" $1 "*) ;; *) false ;; esac; }
cd "$(dirname "$0")/.."
for each in "$release"/*x86_64.tar.gz "$release"/*amd64.deb; do
    [ "$parts" = " alone " ] || [ -f "$each" ] || { echo "try_release.sh: no $each: give the folder that packaging/release.sh made" >&2; exit 2; }
done
[ -x "$root/usr/bin/dpkg" ] || { echo "try_release.sh: $root is no Debian root: --help says how one is made" >&2; exit 2; }
[ "$(id -u)" = 0 ] || { echo "try_release.sh: be root, since it goes into the root by chroot" >&2; exit 2; }
. tools/tally.sh
work=/tmp/pmhost-trial bare=$root
before=$(mktemp) after=$(mktemp) unpacked=$(mktemp -d) layers=$(mktemp -d)
# ended: nothing of the trial stays, also where it is interrupted
ended() {
    umount "$layers"/*/root 2> /dev/null
    rm -rf "$before" "$after" "$unpacked" "$layers"
}
trap ended EXIT
trap 'exit 130' INT TERM HUP

# layer NAME PACKAGE ..: root is a layer over the bare one, with these packages, a user, and what was released
layer() {
    local folder=$layers/$1
    shift
    mkdir -p "$folder"/{upper,work,root}
    mount -t overlay overlay -o "lowerdir=$bare,upperdir=$folder/upper,workdir=$folder/work" "$folder/root" || exit 2
    root=$folder/root
    mkdir -p "$root$work"
    [ "$parts" = " alone " ] || cp "$release"/*x86_64.tar.gz "$release"/*amd64.deb "$root$work/"
    cp /etc/resolv.conf "$root/etc/"
    echo "deb http://deb.debian.org/debian-security bookworm-security main" > "$root/etc/apt/sources.list.d/security.list"
    chroot "$root" sh -c 'id trial > /dev/null 2>&1 || useradd -m trial' && chroot "$root" chown -R trial "$work"
    [ $# = 0 ] || step "packages $*" "apt-get -qq update && DEBIAN_FRONTEND=noninteractive apt-get -qq install -y --no-install-recommends $*"
}
all() { find "$root"/usr "$root"/etc "$root"/opt -not -name '*.pyc' -not -name __pycache__ -not -path '*/ld.so.cache' | sort; }

# step NAME COMMANDS, asked NAME COMMANDS: they run in the root, by a shell; asked: as an ordinary user
step() { ran "$1" /bin/sh -ec "cd $work; $2"; }
asked() { ran "$1" /bin/su trial -s /bin/sh -c "set -e; cd $work; $2"; }
ran() {
    local name=$1
    shift
    if chroot "$root" /usr/bin/env -i PATH=/usr/local/sbin:/usr/sbin:/usr/bin:/sbin:/bin LC_ALL=C.UTF-8 "$@" > "$root$work/log" 2>&1; then
        tell 0; echo "$name: ok"
    else
        tell 1; echo "$name: FAILED"; tail -5 "$root$work/log"
    fi
}

# blocks: of each block of the release's README its heading and its packages, parted by a tab
blocks() { awk '/^## / { head = substr($0, 4) } /^Packages of Debian: / { gsub(/.*: |`/, ""); print head "\t" $0 }' "$release/README.md" 2> /dev/null; }

# commands HEADING: each command of its block, as a call of `run`, with what it has to print
commands() {
    awk -v head="## $1" '/^## / { is_here = $0 == head } /^```/ { is_block = is_here && /sh$/; next } is_block' "$release/README.md" |
        sed "s/'/'\\\\''/g; s/^\\(.*\\) # \\(.*\\)\$/run '\\1' '\\2'/; t; s/.*/run '&' ''/"
}

# block HEADING PACKAGES: its commands, each in the same shell of an ordinary user
block() {
    local number=0 line
    layer "${1// /_}" $2
    step "$1: the .deb" 'apt-get -qq install -y --no-install-recommends ./*.deb'
    {
        echo 'run() { eval "$1" > /tmp/said 2>&1; status=$?; { [ -z "$2" ] || grep -qF -- "$2" /tmp/said; } && [ $status = 0 ] && echo "$1: ok" || { echo "$1: FAILED"; tail -5 /tmp/said; }; }'
        echo 'cd; export COLUMNS=200'
        commands "$1"
    } > "$root$work/block"
    chroot "$root" /usr/bin/env -i PATH=/usr/bin:/bin LC_ALL=C.UTF-8 /bin/su trial -s /bin/sh "$work/block" > "$after" 2>&1 < /dev/null
    while IFS= read -r line; do
        echo "$line"
        case $line in *": ok") tell 0; number=$((number + 1)) ;; *": FAILED") tell 1 ;; esac
    done < "$after"
    [ "$number" -gt 2 ] # (a block without commands was none)
    tell $?
    umount "$root"
    rm -rf "$layers/${1// /_}"
}

# alone: README's first example
alone() {
    local example
    example=$(grep -o '(cd python/tests && python3 -m plain replay) < [a-z./-]*' README.md)
    layer python3_alone
    mkdir -p "$root$work/tree/python"
    cp -r python/tests "$root$work/tree/python/" && cp -r examples "$root$work/tree/"
    chroot "$root" chown -R trial "$work"
    step "nothing but python3 is there" '! command -v rt && ! command -v gcc && python3 --version'
    asked "README: ${example:-it has no such line}" "cd tree; ${example:-false} | cmp - examples/answer-lost.report"
    umount "$root"
}

if wanted alone; then alone; fi
while IFS=$'\t' read -r heading packages; do
    if wanted "${heading##* }"; then block "$heading" "$packages"; fi
done < <(blocks)
wanted whole || { end_tally; exit; }
layer whole gcc libc6-dev pkg-config python3-venv man-db
doc=/usr/share/doc/pmhost
step "no toolchain is there" '! command -v rt && ! command -v rattle'
all > "$before"
step ".deb" 'dpkg -i *.deb'
asked "what a user imports" 'python3 -c "import pmhost; assert pmhost.__file__.startswith(\"/usr/lib/python3/dist-packages/\")"'
step "what root imports" 'python3 -c "import pmhost"'
asked "its command" 'pmhost -b model --outputs 2 --limit 0:3.135V:3.465V set 0 3.3V | grep "the output commands 3.300048V, within"'
asked "a file of rails" 'printf "[rails.core]\noutput = 0\nvolts = \"0.9V\"\nlimits = [\"0.85V\", \"0.95V\"]\n" > rails.toml && pmhost -b model apply rails.toml'
asked "one version" 'test "$(for each in pmb pmhost; do $each --version | cut -d" " -f2; done | sort -u)" = "$(pkg-config --modversion pmhost pmpart | sort -u)"'
asked "an order over a bus with faults" 'pmhost faults --strike=lost word 1 VOUT_COMMAND 34CD | grep "confirmed"'
asked "C over the shared object" "gcc -Wall -Werror $doc/examples/c/order.c \$(pkg-config --cflags --libs pmhost) -o order && ./order | cmp - $doc/examples/c/order.expected"
asked "C over the part's shared object" "gcc -Wall -Werror $doc/examples/c/part.c \$(pkg-config --cflags --libs pmpart) -o part && ./part | cmp - $doc/examples/c/part.expected"
asked "C over both shared objects" "gcc -Wall -Werror $doc/examples/c/faults.c \$(pkg-config --cflags --libs pmhost pmpart) -o faults && ./faults 5000"
asked "C over the archives" "gcc $doc/examples/c/faults.c -l:libpmhost.a -l:libpmpart.a -o faults && ./faults 5000"
asked "the wheel" 'python3 -m venv v && v/bin/pip install --no-index /usr/share/pmhost/*.whl && v/bin/pmhost -b model --outputs 2 --no-limit set 0 3.3V'
asked "pmb decodes a capture" "pmb decode --values --vout=ulinear16:-12 < $doc/examples/bus.trace | grep -q '3.300048 V'"
asked "README's example" "pmb replay < $doc/examples/answer-lost.scenario | cmp - $doc/examples/answer-lost.report"
asked "manual pages and completions" 'for each in pmb pmhost; do test -x /usr/bin/$each && man -P cat $each 2> /dev/null | grep -qi NAME && bash -c ". /usr/share/bash-completion/completions/$each && complete -p $each" || exit 1; done'
asked "tarball, anywhere" "mkdir t && tar -C t --strip-components=1 -xf *.tar.gz && export PKG_CONFIG_PATH=$work/t/lib/pkgconfig LD_LIBRARY_PATH=$work/t/lib && gcc t/share/doc/pmhost/examples/c/order.c \$(pkg-config --cflags --libs pmhost) -o order && ./order | cmp - t/share/doc/pmhost/examples/c/order.expected && readlink -f \$(ldd order | sed -n 's/.*libpmhost.so.* => \\(.*\\) (.*/\\1/p') | grep -q ^$work/t/ && t/bin/pmhost -b model --outputs 2 --limit 0:3.135V:3.465V set 0 3.3V"
step "removed" 'dpkg -P pmhost'
all > "$after"
cmp -s "$before" "$after"
status=$?
tell $status
[ $status = 0 ] && echo "nothing is left: ok" || { echo "nothing is left: FAILED"; diff "$before" "$after" | head -5; }
tar -C "$unpacked" --strip-components=1 -xf "$release"/*x86_64.tar.gz
if packaging/try_uninstall.sh "$unpacked" > "$after"; then
    tell 0; echo "uninstalled: ok"
else
    tell 1; echo "uninstalled: FAILED"; grep -v ': ok$' "$after"
fi
end_tally
