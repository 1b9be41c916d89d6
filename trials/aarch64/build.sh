#!/usr/bin/env bash
# Builds pmb for aarch64 Linux into a folder, linked statically: for a Raspberry Pi, a BMC. Beside it stands pmb.emulated, which runs it by
# qemu-aarch64 (qemu-user): trials/programs/run_program.py and compare_with_plain.py try it, with PMB=FOLDER/pmb.emulated.
#
#   trials/aarch64/build.sh FOLDER
#
# The toolchain proves the program and compiles it for aarch64; linking is by gcc-aarch64-linux-gnu, with
# trials/aarch64/runtime.c in the place of the toolchain's own C code, which is for x86-64 alone: trusted, as that is. Many
# processor minutes from nothing. What is built for x86-64 in crates/NAME/out stays.
set -eu
case " $* " in *" --help "* | *" -h "*) sed -n '2,/^[^#]/s/^# \{0,1\}//p' "$0"; exit 0 ;; esac
[ $# = 1 ] || { echo "build.sh: give a folder" >&2; exit 2; }
command -v aarch64-linux-gnu-gcc > /dev/null || { echo "aarch64-linux-gnu-gcc: not on this machine: gcc-aarch64-linux-gnu" >&2; exit 1; }
[ -f /usr/aarch64-linux-gnu/lib/libc.a ] || { echo "a C library for aarch64: not on this machine: libc6-dev-arm64-cross" >&2; exit 1; }
mkdir -p "$1"
folder=$(realpath "$1")
cd "$(dirname "$0")/../.."
rm -f "crates/pmb/out/pmb.o"
# The toolchain links and runs for x86-64 alone: it stops there, with the object made.
(cd "crates/pmb" && rt run --target aarch64-unknown-linux-gnu > "$folder/pmb.log" 2>&1 < /dev/null) || true
if ! [ -s "crates/pmb/out/pmb.o" ] || ! grep -q '^logic=proved .*target=aarch64-unknown-linux-gnu' "$folder/pmb.log"; then
    tail -3 "$folder/pmb.log" >&2; echo "build.sh: pmb isn't proved or built for aarch64" >&2; exit 1
fi
mv "crates/pmb/out/pmb.o" "$folder/pmb.o"
aarch64-linux-gnu-gcc -O2 -Wall -Wextra -Werror -static trials/aarch64/runtime.c "$folder/pmb.o" -o "$folder/pmb"
printf '#!/bin/sh\nexec qemu-aarch64 "%s/pmb" "$@"\n' "$folder" > "$folder/pmb.emulated"
chmod +x "$folder/pmb.emulated"
echo "$folder/pmb: $(stat -c %s "$folder/pmb") bytes"
