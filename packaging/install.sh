#!/usr/bin/env bash
# Installs what a built tree has below a folder: the command pmhost with its package for Python, the program pmb,
# their manual pages and completions for bash; for C the host and the model part, libpmhost and libpmpart, each as an
# archive and as a shared object with its header (the host's has pmhost_patient.h beside it), and pmhost.pc and pmpart.pc for
# pkg-config; the package as a wheel; the Rust crate; the decoder for sigrok where that looks; and a README of what is installed
# (packaging/release.md), docs, examples and the captures that these name.
#
#   packaging/install.sh PREFIX [--library] [--archives FOLDER]
#   packaging/install.sh PREFIX --uninstall
#
# With --library the libraries for C alone. pmb is the one in crates/pmb/out, or the one that PMB names; it is left out where
# PMB is ''. The archives are libpm_host_c.a and libpm_device_c.a of FOLDER, or those in crates/*/out. CC is the
# compiler that makes the shared objects, cc if it isn't set; DESTDIR stands before PREFIX where files are put, and in no file.
# COMPLETION is a file for pmhost's completion, where its library is made for another machine. Nothing is built but the shared
# objects. Root without DESTDIR has ldconfig told. --uninstall takes away what the last install put below PREFIX, and just that, also
# where that install was stopped.
set -eu
case " $* " in *" --help "* | *" -h "*) sed -n '2,/^[^#]/s/^# \{0,1\}//p' "$0"; exit 0 ;; esac
root=$(cd "$(dirname "$0")/.." && pwd)
prefix='' library='' archives='' uninstall=''
die() { echo "install.sh: $*" >&2; exit 2; }
while [ $# -gt 0 ]; do
    case $1 in
    --library) library=yes ;;
    --uninstall) uninstall=yes ;;
    --archives) [ $# -gt 1 ] || die "--archives: give a folder"; archives=$2; shift ;;
    -*) die "$1: there are --library, --archives FOLDER and --uninstall" ;;
    *) [ -z "$prefix" ] || die "$1: one folder is enough"; prefix=$1 ;;
    esac
    shift
done
case $prefix in '') die "give a folder, as packaging/install.sh /usr/local" ;; /*) ;; *) prefix=$PWD/$prefix ;; esac
to=${DESTDIR-}$prefix
list=$to/share/pmhost/installed

# told: the linker's cache knows the libraries, where this is a system's own folder
told() { if [ "$(id -u)" = 0 ] && [ -z "${DESTDIR-}" ] && command -v ldconfig > /dev/null; then ldconfig; fi; }

# removed: what the list names is gone, and the folders that it made where they are empty
removed() {
    local each folders
    sed -n 's/^file //p' "$list" | while IFS= read -r each; do rm -f "$to/$each"; done
    folders=$(sed -n 's/^folder //p' "$list" | sort -r)
    rm -f "$list"
    while IFS= read -r each; do rmdir "$to/$each" 2> /dev/null || true; done <<< "$folders"
}

if [ -n "$uninstall" ]; then
    [ -f "$list" ] || die "nothing is installed below $to: there is no $list"
    removed
    told
    echo "removed from $to"
    exit
fi

pmb=${PMB-$root/crates/pmb/out/pmb}

# archive CRATE: where its archive is
archive() { echo "${archives:-$root/crates/$1/out}/lib$1.a"; }

# program PATH HOW: it is there, or left out
program() { [ -z "$1" ] || [ -x "$1" ] || die "no program at $1: build it $2, or give --library"; }

for each in pm_host_c pm_device_c; do
    [ -f "$(archive $each)" ] || die "no archive at $(archive $each): build it by (cd crates/$each && rt lib), or give --archives FOLDER"
done
command -v ${CC-cc} > /dev/null || die "no C compiler ${CC-cc} on this machine: name one by CC"
if [ -z "$library" ]; then
    program "$pmb" "by (cd crates/pmb && rt run -- replay < stdin), set PMB"
    command -v python3 > /dev/null || die "no python3 on this machine: pmhost wants it; or give --library"
fi
version=$(sed -n 's/^pub const VERSION: &str = "\(.*\)";$/\1/p' "$root/crates/pm_tool/src/commandline/options.rt")
major=${version%%.*}
work=$(mktemp -d)
trap 'rm -rf "$work"' EXIT
mkdir -p "$to"
[ ! -f "$list" ] || removed

# made FOLDER: it is there, and each part that wasn't stands in the list
made() {
    local each=$1 new=''
    while [ "$each" != . ] && [ ! -d "$to/$each" ]; do new+="folder $each"$'\n'; each=$(dirname "$each"); done
    mkdir -p "$to/$1"
    printf '%s' "$new" >> "$list"
}

# put MODE FILE PLACE: the list has it first, so that a stopped install leaves nothing that isn't listed
put() { made "$(dirname "$3")"; echo "file $3" >> "$list"; install -m "$1" "$2" "$to/$3"; }

# linked TARGET PLACE
linked() { echo "file $2" >> "$list"; ln -sf "$1" "$to/$2"; }

# shared OUT NAME ARCHIVE ..: a shared object of archives
shared() {
    local out=$1 name=$2
    shift 2
    ${CC-cc} -shared -Wl,--whole-archive "$@" -Wl,--no-whole-archive -Wl,-z,noexecstack -Wl,-z,relro -Wl,-soname,"$name" -o "$out"
}

# library CRATE NAME HEADER WORDS: the archive, the header, the shared object, and what pkg-config says of them
library() {
    local object=lib$2.so.$version
    put 644 "$(archive "$1")" "lib/lib$2.a"
    put 644 "$root/crates/$1/include/$3" "include/$3"
    shared "$work/$object" "lib$2.so.$major" "$(archive "$1")"
    put 644 "$work/$object" "lib/$object"
    linked "$object" "lib/lib$2.so.$major"
    linked "lib$2.so.$major" "lib/lib$2.so"
    cat > "$work/$2.pc" << END
prefix=\${pcfiledir}/../..
libdir=\${prefix}/lib
includedir=\${prefix}/include

Name: $2
Description: $4
Version: $version
Libs: -L\${libdir} -l$2
Cflags: -I\${includedir}
END
    put 644 "$work/$2.pc" "lib/pkgconfig/$2.pc"
}

# package: the command pmhost and its package, which finds its library beside it wherever both stand
package() {
    (cd "$root/python/src" && find pmhost -type f ! -name '*.pyc' ! -name '*.so') | sort > "$work/modules"
    while IFS= read -r each; do put 644 "$root/python/src/$each" "lib/pmhost/$each"; done < "$work/modules"
    shared "$work/libpmhost.so" libpmhost.so "$(archive pm_host_c)" "$(archive pm_device_c)"
    put 644 "$work/libpmhost.so" lib/pmhost/pmhost/libpmhost.so
    ${CC:-cc} -shared -fPIC -O2 -o "$work/preload.so" "$root/python/src/pmhost/torture/preload.c" -ldl
    put 644 "$work/preload.so" lib/pmhost/pmhost/torture/preload.so
    put 755 "$root/packaging/pmhost" bin/pmhost
    put 644 "$root/docs/pmhost.1" share/man/man1/pmhost.1
    [ -n "${COMPLETION-}" ] || python3 -B "$to/bin/pmhost" --completion > "$work/completion"
    put 644 "${COMPLETION:-$work/completion}" share/bash-completion/completions/pmhost
}

# wheel: the package as pip takes it, where it is made for this machine
wheel() {
    mkdir -p "$work/archives" "$work/wheel"
    for each in pm_host_c pm_device_c; do cp "$(archive $each)" "$work/archives/"; done
    (cd "$root/python/backend" && PMHOST_ARCHIVES=$work/archives python3 -B -c 'import backend, sys; backend.build_wheel(sys.argv[1])' "$work/wheel")
    put 644 "$work/wheel"/*.whl "share/pmhost/$(basename "$work/wheel"/*.whl)"
}

# known WORD ..: the files of these folders that git knows, where the tree is a repository of its own
known() {
    (
        cd "$root"
        { [ -e .git ] && git ls-files "$@" 2> /dev/null; } || find "$@" -type f ! -name '*.pyc'
    )
}

# crate: the Rust crate, which finds the archives of this folder
crate() {
    known rust/Cargo.toml rust/README.md rust/build.rs rust/src rust/examples > "$work/crate"
    while IFS= read -r each; do put 644 "$root/$each" "share/pmhost/$each"; done < "$work/crate"
}

# decoder: the one for sigrok
decoder() {
    known trials/sigrok/pmbus > "$work/decoder"
    while IFS= read -r each; do put 644 "$root/$each" "share/libsigrokdecode/decoders/pmbus/$(basename "$each")"; done < "$work/decoder"
}

# pages: docs, examples, and the captures that they and README name
pages() {
    put 644 "$root/packaging/release.md" share/doc/pmhost/README.md
    known CHANGELOG.md docs examples > "$work/pages"
    (cd "$root" && grep -oh 'python/tests/data/captures/[A-Za-z0-9._-]*[a-z]' packaging/release.md docs/*.md) | sort -u >> "$work/pages"
    while IFS= read -r each; do put 644 "$root/$each" "share/doc/pmhost/$each"; done < "$work/pages"
}

made share/pmhost
library pm_host_c pmhost pmhost.h "A PMBus host core that sets supply voltages, proved"
put 644 "$root/crates/pm_host_c/include/pmhost_patient.h" include/pmhost_patient.h
library pm_device_c pmpart pmpart.h "A model of a PMBus power converter to try firmware against, proved"
if [ -z "$library" ]; then
    package
    [ -n "${COMPLETION-}" ] || wheel
    crate
    decoder
    pages
    if [ -n "$pmb" ]; then
        put 755 "$pmb" bin/pmb
        put 644 "$root/docs/pmb.1" share/man/man1/pmb.1
        put 644 "$root/packaging/completions/pmb.bash" share/bash-completion/completions/pmb
    fi
fi
told
whole=', pmhost and pmb with manual pages and completions, the Rust crate, the decoder for sigrok, README, docs and examples'
[ -z "$library" ] || whole=''
echo "installed below $to: libpmhost and libpmpart for C$whole"
echo "next: cc -I$prefix/include examples/c/order.c $prefix/lib/libpmhost.a"
[ -n "$library" ] || echo "      pmhost -b model --outputs 2 --limit 0:3.135V:3.465V set 0 3.3V   # a model part, no board; man pmhost"
case ":$PATH:" in *":$prefix/bin:"*) ;; *) [ -n "$library" ] || echo "      ($prefix/bin isn't on your PATH yet)" ;; esac
