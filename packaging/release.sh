#!/usr/bin/env bash
# Makes what can be handed to a machine without the toolchain, from a built tree: a tarball and a .deb (by dpkg-deb) of
# what packaging/install.sh installs, for x86-64 and, where --aarch64 is given, for 64-bit ARM; with --targets a tarball of the
# libraries for each other processor; README.md (packaging/release.md); SHA256SUMS over these; and FACTS, a line for each: the
# processor, the tree's commit and its date, whether the programs are in it, and of each archive its sum and what it says of itself:
# the compiler, and the stack of its deepest call.
#
#   packaging/release.sh OUT [--library] [--archives FOLDER] [--aarch64 FOLDER] [--targets FOLDER]
#
# The archives libpm_host_c.a and libpm_device_c.a are those of the first FOLDER, or those in crates/*/out. The second is that of
# aarch64 Linux which trials/c/targets.sh --out leaves; pmb in it, as trials/aarch64/build.sh makes it, goes
# with it. The third is the whole folder that targets.sh --out leaves: each target but x86-64 and aarch64-linux has a tarball. No licence
# is invented: the .deb has no copyright file, which lintian says. Refused are a tree with changes that git doesn't know, an archive
# or a program that doesn't say that it was built from proofs (a rewritten one has facts that say what it is), a fact that is empty, and a
# description that names what isn't there. The archives for x86-64 are those of `rt lib --backend rattle`, which say their stack.
set -eu
case " $* " in *" --help "* | *" -h "*) sed -n '2,/^[^#]/s/^# \{0,1\}//p' "$0"; exit 0 ;; esac
root=$(cd "$(dirname "$0")/.." && pwd)
out='' library='' archives='' aarch64='' targets=''
die() { echo "release.sh: $*" >&2; exit 2; }
while [ $# -gt 0 ]; do
    case $1 in
    --library) library=--library ;;
    --archives | --aarch64 | --targets) [ $# -gt 1 ] || die "$1: give a path"; declare "${1#--}=$2"; shift ;;
    -*) die "$1: there are --library, --archives FOLDER, --aarch64 FOLDER and --targets FOLDER" ;;
    *) [ -z "$out" ] || die "$1: one folder is enough"; out=$1 ;;
    esac
    shift
done
[ -n "$out" ] || die "give a folder, as packaging/release.sh release"
lacking=()
for each in git dpkg-deb sha256sum tar gzip readelf "${STRIP-strip}" ${aarch64:+aarch64-linux-gnu-gcc aarch64-linux-gnu-strip}; do
    command -v "$each" > /dev/null || lacking+=("$each")
done
for each in pm_host_c pm_device_c; do
    for path in "${archives:-$root/crates/$each/out}/lib$each.a" ${aarch64:+"$aarch64/lib$each.a"}; do
        [ -f "$path" ] || lacking+=("$path")
    done
done
if [ ${#lacking[@]} != 0 ]; then
    printf -v lacking ', %s' "${lacking[@]}"
    die "this machine lacks ${lacking#, }: archives are built by (cd crates/NAME && rt lib --backend rattle), those for ARM by trials/c/targets.sh --out"
fi
[ -z "$(git -C "$root" status --porcelain)" ] || die "the tree has changes that git doesn't know: commit them, or take a clean clone"

# says ARCHIVE: what it says of itself; the toolchain says by which logic of what it proved alone
says() { readelf -p .comment "$1" 2> /dev/null | grep -ao 'rattle logic=[0-9a-f]*\|built: backend=[a-z]*\|stack-bytes=[0-9]*\|code=[a-z0-9-]*' | tr '\n' ' '; }
pmb=${PMB-$root/crates/pmb/out/pmb}
for path in "${archives:-$root/crates/pm_host_c/out}/libpm_host_c.a" "${archives:-$root/crates/pm_device_c/out}/libpm_device_c.a" \
    ${aarch64:+"$aarch64/libpm_host_c.a" "$aarch64/libpm_device_c.a"} $([ -n "$library" ] || echo "$pmb" ${aarch64:+"$aarch64/pmb"}); do
    [ ! -f "$path" ] || case $(says "$path") in *"rattle logic="*) ;; *) die "$path doesn't say that it was built from proofs: build it by rt" ;; esac
done
mkdir -p "$out"
out=$(cd "$out" && pwd)
folder=$(mktemp -d)
trap 'rm -rf "$folder"' EXIT
commit=$(git -C "$root" rev-parse --short HEAD)
date=$(git -C "$root" log -1 --format=%cI)
export SOURCE_DATE_EPOCH
SOURCE_DATE_EPOCH=$(git -C "$root" log -1 --format=%ct)
if [ -z "$archives" ]; then
    archives=$folder/archives
    mkdir "$archives"
    for each in pm_host_c pm_device_c; do
        cp "$root/crates/$each/out/lib$each.a" "$archives/"
    done
fi
maintainer=$(git -C "$root" log -1 --format='%an <%ae>')
version=$(sed -n 's/^pub const VERSION: &str = "\(.*\)";$/\1/p' "$root/crates/pm_tool/src/commandline/options.rt")
name=pmhost made=()

# packed ARCH DEBIAN_ARCH ARCHIVES MODE: the tarball and the .deb of one processor
packed() {
    local arch=$1 deb=$2 from=$3 mode=$4 tree=$folder/$1
    DESTDIR=$tree "$root/packaging/install.sh" /usr $mode --archives "$from" > /dev/null
    rm -f "$tree/usr/share/pmhost/installed" # (the list of what --uninstall takes away; dpkg has its own)
    mkdir -p "$tree/usr/share/doc/$name"
    cp "$root/packaging/release.md" "$tree/usr/README.md"
    find "$tree" -exec touch -h -d "@$SOURCE_DATE_EPOCH" {} +
    tar -C "$tree/usr" --sort=name --owner=0 --group=0 --numeric-owner --transform "s,^\.,$name-$version-$arch," -cf - . |
        gzip -n > "$out/$name-$version-$arch.tar.gz"
    rm "$tree/usr/README.md"
    debian "$tree" "$deb"
    dpkg-deb --root-owner-group --build "$tree" "$out/${name}_${version}_$deb.deb" > /dev/null
    made+=("./$name-$version-$arch.tar.gz" "./${name}_${version}_$deb.deb")
    local facts each
    if [ -f "$from/facts" ]; then
        facts=$(facts_of "$from")
    else
        facts=$(for each in libpm_host_c.a libpm_device_c.a; do echo "$each sha256=$(sha256sum < "$from/$each" | cut -c1-64) $(says "$from/$each")"; done)
    fi
    fact "$arch commit=$commit date=$date programs=$([ -z "$mode" ] && echo yes || echo no)" $facts
}

# facts_of FOLDER: what targets.sh left of a target, which has to be of this commit and of these archives
facts_of() {
    local each sum
    for each in libpm_host_c.a libpm_device_c.a facts; do
        [ -f "$1/$each" ] || die "no $1/$each: trials/c/targets.sh --out makes it"
    done
    case " $(cat "$1/facts") " in *" commit=$(git -C "$root" rev-parse HEAD) "*) ;; *) die "$1/facts is of another commit" ;; esac
    for each in "sha256=:libpm_host_c.a" "sha256-part=:libpm_device_c.a"; do
        sum=$(sha256sum < "$1/${each#*:}" | cut -c1-64)
        case " $(cat "$1/facts") " in *" ${each%%:*}$sum "*) ;; *) die "$1/facts isn't of its ${each#*:}" ;; esac
    done
    cat "$1/facts"
}

# fact WORD ..: a line of FACTS, none of whose facts is empty
fact() {
    local line="$*" each
    for each in $line; do case $each in *=) die "FACTS: ${each%=} of ${line%% *} is empty" ;; esac; done
    case $line in *"built: backend="*"stack-bytes="*"built: backend="*"stack-bytes="* | *" proof="*) ;; *)
        die "FACTS: ${line%% *}: an archive doesn't say its compiler or its stack: build it by rt lib --backend rattle" ;;
    esac
    echo "$line" >> "$out/FACTS"
}

# of_target NAME FOLDER: the libraries of another processor, by what targets.sh left
of_target() {
    local from=$2 tree=$folder/$1/$name-$version-$1 facts
    facts=$(facts_of "$from")
    mkdir -p "$tree/lib" "$tree/include"
    cp "$from/libpm_host_c.a" "$tree/lib/libpmhost.a"
    cp "$from/libpm_device_c.a" "$tree/lib/libpmpart.a"
    if [ -d "$from/fast" ]; then
        mkdir "$tree/lib/fast"
        cp "$from/fast/libpm_host_c.a" "$tree/lib/fast/libpmhost.a"
        cp "$from/fast/libpm_device_c.a" "$tree/lib/fast/libpmpart.a"
    fi
    cp "$root"/crates/pm_host_c/include/*.h "$root"/crates/pm_device_c/include/*.h "$tree/include/"
    cp -r "$root/examples/c" "$root/examples/firmware" "$tree/"
    cp "$root/packaging/release.md" "$tree/README.md"
    cp "$from/facts" "$tree/facts"
    find "$tree" -exec touch -h -d "@$SOURCE_DATE_EPOCH" {} +
    tar -C "$folder/$1" --sort=name --owner=0 --group=0 --numeric-owner -cf - "$name-$version-$1" |
        gzip -n > "$out/$name-$version-$1.tar.gz"
    made+=("./$name-$version-$1.tar.gz")
    fact "$1 $facts"
}

# debian TREE ARCH: what a .deb has beside
debian() {
    local tree=$1 arch=$2 doc=$1/usr/share/doc/$name python='' whole='The libraries for C with their headers'
    mkdir -p "$tree/DEBIAN" "$doc"
    if [ -x "$tree/usr/bin/pmhost" ]; then
        python=yes
        whole='The command pmhost, the package for Python, the program pmb, the libraries for
 C with their headers, the Rust crate, and the decoder pmbus for sigrok'
        # What a user imports is what the command runs. Root's Python may leave compiled modules there.
        mkdir -p "$tree/usr/lib/python3/dist-packages"
        ln -s ../../pmhost/pmhost "$tree/usr/lib/python3/dist-packages/pmhost"
        printf '#!/bin/sh\nset -e\nfind /usr/lib/pmhost -name __pycache__ -prune -exec rm -rf {} +\n' > "$tree/DEBIAN/prerm"
        chmod 755 "$tree/DEBIAN/prerm"
    fi
    described "$tree" "$whole"
    for page in "$tree"/usr/share/man/man1/*.1; do [ ! -f "$page" ] || gzip -9n "$page"; done
    printf '%s (%s) unstable; urgency=medium\n\n  * Commit %s.\n\n -- %s  %s\n' "$name" "$version" "$commit" \
        "$maintainer" "$(date -R -d "@$SOURCE_DATE_EPOCH")" | gzip -9n > "$doc/changelog.gz"
    find "$tree/usr" \( -name 'libpm*.so*' -o -path '*/bin/*' \) -type f -exec "${STRIP-strip}" --strip-unneeded {} + 2> /dev/null || true
    cat > "$tree/DEBIAN/control" << END
Package: $name
Version: $version
Architecture: $arch
Maintainer: $maintainer
Installed-Size: $(du -sk "$tree/usr" | cut -f1)
Depends: libc6 (>= 2.34)${python:+, python3 (>= 3.11)}
Section: electronics
Priority: optional
Description: PMBus host core that sets supply voltages, proved
 $whole. A
 host orders a voltage, reads it back, and keeps the list of words that a
 register may hold until then. A model part is there to try firmware and
 scripts against.
END
    printf 'activate-noawait ldconfig\n' > "$tree/DEBIAN/triggers"
    printf '%s 0 %s (>= %s)\n' libpmhost "$name" "$version" libpmpart "$name" "$version" > "$tree/DEBIAN/shlibs"
    (cd "$tree" && find usr -type f -exec md5sum {} + > DEBIAN/md5sums)
    find "$tree" -type d -exec chmod 755 {} +
    find "$tree" -exec touch -h -d "@$SOURCE_DATE_EPOCH" {} +
}

# described TREE WORDS: what the description names is there
described() {
    local each words=("pmhost:bin/pmhost" "pmb:bin/pmb" "Python:lib/python3/dist-packages/pmhost/__init__.py" "C :lib/libpmhost.a"
        "C :lib/libpmpart.a" "headers:include/pmhost.h" "Rust:share/pmhost/rust/Cargo.toml" "sigrok:share/libsigrokdecode/decoders/pmbus/pd.py")
    for each in "${words[@]}"; do
        case "${2//$'\n'/} " in *"${each%%:*}"*)
            [ -e "$1/usr/${each#*:}" ] || die "the description names ${each%%:*}, and ${each#*:} isn't there" ;;
        esac
    done
}

: > "$out/FACTS"
packed x86_64 amd64 "$archives" "$library"
[ -n "$library" ] || export COMPLETION=$folder/x86_64/usr/share/bash-completion/completions/pmhost
if [ -n "$aarch64" ]; then
    export CC=aarch64-linux-gnu-gcc STRIP=aarch64-linux-gnu-strip
    mode=--library
    if [ -z "$library" ] && [ -x "$aarch64/pmb" ]; then
        mode=''
        export PMB=$aarch64/pmb
    fi
    packed aarch64 arm64 "$aarch64" "$mode"
fi
if [ -n "$targets" ]; then
    for each in "$targets"/*/; do
        each=$(basename "$each")
        case $each in x86-64* | aarch64-linux) ;; *) of_target "$each" "$targets/$each" ;; esac
    done
fi
cp "$root/packaging/release.md" "$out/README.md"
(cd "$out" && sha256sum "${made[@]}" > SHA256SUMS)
cat "$out/FACTS"
