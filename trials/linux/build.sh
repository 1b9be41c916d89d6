#!/usr/bin/env bash
# Builds what trials/linux/run.sh needs, once: a kernel of Debian's linux-source-6.1 for User Mode Linux, the modules of
# trials/linux/modules for it, and the archives of crates/pm_host_c and crates/pm_device_c as one shared object for the package.
#
#   trials/linux/build.sh CACHE
#
# CACHE is a folder outside of the repository, which gets 2 GB: source, kernel, modules. Some five minutes the first
# time, on two cores; JOBS=4 takes four. ARCHIVE and PART name other archives than crates/*/out/lib*.a.
# Packages of Debian 12: linux-source-6.1 flex bison bc gcc make xz-utils.
set -u
case " $* " in *" --help "* | *" -h "*) sed -n '2,/^[^#]/s/^# \{0,1\}//p' "$0"; exit 0 ;; esac
[ $# = 1 ] || { echo "build.sh: give a folder for the kernel's source and objects; --help shows more" >&2; exit 2; }
here=$(cd "$(dirname "$0")" && pwd)
root=$(cd "$here/../.." && pwd)
cache=$(realpath -m "$1")
packed=/usr/src/linux-source-6.1.tar.xz source=$cache/linux-source-6.1 kernel=$cache/kernel
refuse() { echo "build.sh: $1" >&2; exit 2; }
case $cache in *[[:space:],]*) refuse "$cache: give a folder whose path has no blank and no comma" ;; esac
case $cache/ in "$root"/*) refuse "$cache: give a folder outside of the repository" ;; esac
for each in flex bison bc gcc make xz; do
    command -v $each > /dev/null || refuse "no $each: install linux-source-6.1 flex bison bc gcc make xz-utils"
done
mkdir -p "$cache" || exit 2
log=$cache/log
: > "$log"
# quiet WORDS: runs them; where they fail the end of the log is shown.
quiet() { "$@" >> "$log" 2>&1 < /dev/null || { tail -20 "$log" >&2; refuse "$1 failed: $log"; }; }
if [ ! -f "$source/Makefile" ]; then
    [ -f $packed ] || refuse "no $packed: install linux-source-6.1"
    quiet tar -xf $packed -C "$cache"
fi
export ARCH=um
mkdir -p "$kernel"
if ! cmp -s "$here/kernel.config" "$kernel/asked" || [ ! -x "$kernel/linux" ]; then
    quiet make -C "$source" O="$kernel" tinyconfig
    (cd "$source" && quiet ./scripts/kconfig/merge_config.sh -m -O "$kernel" "$kernel/.config" "$here/kernel.config")
    quiet make -C "$source" O="$kernel" olddefconfig
    missing=$(grep -vxFf "$kernel/.config" "$here/kernel.config")
    [ -z "$missing" ] || refuse "the kernel's configuration doesn't take $missing"
    quiet make -C "$source" O="$kernel" -j "${JOBS:-2}" linux modules
    cp "$here/kernel.config" "$kernel/asked"
fi
mkdir -p "$cache/modules"
for each in "$here"/modules/*; do
    cmp -s "$each" "$cache/modules/$(basename "$each")" || cp "$each" "$cache/modules/"
done
quiet make -C "$source" O="$kernel" M="$cache/modules" modules
part=${PART-$root/crates/pm_device_c/out/libpm_device_c.a} archive=${ARCHIVE-$root/crates/pm_host_c/out/libpm_host_c.a}
rm -f "$cache/libpmhost.so"
if [ -f "$part" ] && [ -f "$archive" ]; then
    quiet gcc -shared -Wl,--whole-archive "$archive" "$part" -Wl,--no-whole-archive -Wl,-z,noexecstack -o "$cache/libpmhost.so"
fi
echo "kernel $(make -s -C "$source" O="$kernel" kernelrelease), $(find "$cache/modules" -name '*.ko' | wc -l) modules," \
    "$([ -f "$cache/libpmhost.so" ] && echo "the library" || echo "no library")"
