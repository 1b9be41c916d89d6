#!/usr/bin/env bash
# Leaves the page of examples/web in a folder, ready to be served: the libraries of crates/pm_host_c and crates/pm_device_c are
# proved and compiled for WebAssembly (wasm64) by the toolchain, and linked into one module with one memory.
#
#   trials/web/build.sh FOLDER [HOST_ARCHIVE PART_ARCHIVE]
#
# With two archives for wasm64, those are linked, and nothing is proved. `python3 -m http.server -d FOLDER` then serves
# the page, which wants a browser with 64-bit memories (Chromium 133 or later, Firefox 134 or later).
set -eu
case " $* " in *" --help "* | *" -h "*) sed -n '2,/^[^#]/s/^# \{0,1\}//p' "$0"; exit 0 ;; esac
[ $# = 1 ] || [ $# = 3 ] || { echo "build.sh: give a folder, and two archives or none" >&2; exit 2; }
command -v rt > /dev/null || { echo "build.sh: the toolchain's rt isn't on this machine" >&2; exit 1; }
mkdir -p "$1"
target=$(realpath "$1")
archives=()
for each in "${@:2}"; do archives+=("$(realpath "$each")"); done
cd "$(dirname "$0")/../.."
kit=$(dirname "$(dirname "$(realpath "$(command -v rt)")")")
folder=$(mktemp -d)
trap 'rm -rf "$folder"' EXIT
if [ ${#archives[@]} = 0 ]; then
    for each in pm_host_c pm_device_c; do
        (cd crates/$each && rt lib --target wasm64-unknown-unknown > "$folder/log" 2>&1) || { tail -5 "$folder/log"; exit 1; }
        # (an archive that stays there is taken for this machine's)
        mv crates/$each/out/lib$each.a "$folder/$each.a"
        archives+=("$folder/$each.a")
    done
fi
mkdir "$folder/objects"
for each in "${archives[@]}"; do (cd "$folder/objects" && "$kit/toolchain/bin/llvm-ar" x "$each"); done
"$kit/toolchain/bin/llvm-ar" rcs "$folder/both.a" "$folder"/objects/*
"$kit/bin/rattle-link" --target wasm64-unknown-unknown --toolchain "$kit/toolchain" --stack 65536 -o "$target/pm.wasm" \
    "$folder/both.a" 2> "$folder/log" || { cat "$folder/log"; exit 1; }
cp examples/web/*.html examples/web/*.mjs "$target/"
echo "$target: $(wc -c < "$target/pm.wasm") bytes of WebAssembly"
