#!/usr/bin/env bash
# Tries what stands above the proof over the proved libraries: the C programs by gcc (trials/c/run.sh --gcc), the Rust crate
# (cargo test, and its example by trials/c/bus.py) and the Python package (tools/python_tests.py).
#
#   tools/packages.sh [--after-ci | --built FOLDER]
#
# `rt ci` proves crates/pm_host_c and crates/pm_device_c, and leaves no archive of them; it leaves the libraries that they stand on.
# With --after-ci these are taken as they are, so that the two crates alone are proved once more as they are built: give it
# where `rt ci` has just passed, and nothing was edited since. With --built the archives of that folder are taken:
# libpm_host_c.a and libpm_device_c.a. With neither, `rt lib` makes them over what it kept.
#
# A tool that isn't on this machine is named in a line; it is a failure where PACKAGES_REQUIRED=1 is set. Where none of a part's
# tests passed, that is a failure too. The last line says how many tests passed and failed.
set -u
case " $* " in *" --help "* | *" -h "*) sed -n '2,/^[^#]/s/^# \{0,1\}//p' "$0"; exit 0 ;; esac
built='' after_ci=''
case "$#${1-}" in
    0) ;;
    1--after-ci) after_ci=yes ;;
    2--built)
        built=$(realpath -m "${2:-/}")
        [ -f "$built/libpm_host_c.a" ] && [ -f "$built/libpm_device_c.a" ] ||
            { echo "packages.sh: give --built FOLDER, one with libpm_host_c.a and libpm_device_c.a" >&2; exit 2; } ;;
    *) echo "packages.sh: '$*': give --after-ci, --built FOLDER, or nothing" >&2; exit 2 ;;
esac
cd "$(dirname "$0")/.."
folder=$(mktemp -d)
trap 'rm -rf "$folder"' EXIT
. tools/tally.sh

# counted NAME PASSED FAILED STATUS: a part's tests; one that ends badly without a test that failed has failed once, and so has
# one of whose tests none passed
counted() {
    local bad=$3
    if [ "$bad" = 0 ] && { [ "$4" != 0 ] || [ "$2" = 0 ]; }; then bad=1; fi
    passed=$((passed + $2)) failed=$((failed + bad))
    echo "$1: $2 passed, $bad failed"
    [ "$bad" = 0 ] || tail -40 "$folder/log"
}

# lacks NAME TOOL: a part that can't be tried
lacks() {
    echo "$1: no $2 on this machine"
    [ "${PACKAGES_REQUIRED-}" != 1 ] || tell 1
}

ended() {
    times > "$folder/times" # (of this shell's own children: no pipe)
    awk -F'[ms ]+' 'NR == 2 {printf "%.0f processor seconds\n", $1 * 60 + $2 + $3 * 60 + $4}' "$folder/times"
    end_tally; exit
}

# left_by_ci NAME: the archive of a crate over the libraries that `rt ci` left, or a failure where one isn't there
left_by_ci() {
    local kit at words=() each
    kit=$(dirname "$(dirname "$(readlink -f "$(command -v rt)")")") || return 1
    for each in $(sed -n "s/^$1 staticlib: //p" crates.txt); do
        at=$PWD/crates/$each/out/rlib
        # (one with a stamp is of an earlier `rt check` here, which may be older than the sources)
        { [ -d "$at/$each.rlib" ] && [ ! -e "$at/stamp" ]; } || return 1
        words+=(--extern "$each=$at/$each.rlib" -L "dependency=$at")
    done
    (cd "crates/$1" && "$kit/bin/rattle" build --crate-name "$1" src/lib.rt --crate-type staticlib \
        --extern "std=$kit/rlibs/std.rlib" -L "dependency=$kit/rlibs" "${words[@]}" --links "$1=" --jobs 1 \
        --antt-project "$kit/rattle/logic/antt-project.json" --logic-built "$kit/logic_built" --toolchain "$kit/toolchain" \
        --backend rattle -o "$built/lib$1.a")
}

if [ -z "$built" ]; then
    built=$folder/built
    mkdir "$built"
    for each in pm_host_c pm_device_c; do
        if [ -n "$after_ci" ] && left_by_ci "$each" > "$folder/log" 2>&1; then
            echo "lib$each.a: proved and built over the libraries that rt ci left"
        elif (cd "crates/$each" && rt lib --backend rattle > "$folder/log" 2>&1); then
            cp "crates/$each/out/lib$each.a" "$built/"
            echo "lib$each.a: by rt lib"
        else
            counted "lib$each.a" 0 0 1
            ended
        fi
    done
fi

if command -v gcc > /dev/null; then
    trials/c/run.sh --built "$built" --gcc > "$folder/log" 2>&1
    status=$?
    read -r good bad < <(sed -n 's/^\([0-9]*\) passed, \([0-9]*\) failed$/\1 \2/p' "$folder/log" | tail -1)
    counted "C, by gcc" "${good:-0}" "${bad:-0}" $status
else
    lacks "C" gcc
fi

if command -v cargo > /dev/null; then
    # (nobody debugs what is removed with the folder)
    PM_ARCHIVES=$built CARGO_TARGET_DIR=$folder/cargo CARGO_PROFILE_DEV_DEBUG=0 CARGO_INCREMENTAL=0 cargo test --offline --all-features --manifest-path rust/Cargo.toml > "$folder/log" 2>&1
    status=$?
    read -r good bad < <(awk '/^test result: / {good += $4; bad += $6} END {print good + 0, bad + 0}' "$folder/log")
    # (each test of the sources ran: those of doc comments have a line of their own)
    ran=$(awk '/^   Doc-tests / {exit} /^test result: / {ran += $4 + $6} END {print ran + 0}' "$folder/log")
    there=$(grep -rhc '^ *#\[test\]' rust/src rust/tests rust/examples --include=*.rs | awk '{n += $1} END {print n + 0}')
    echo "Rust: tests found by name $ran, by content $there"
    [ "$ran" = "$there" ] || bad=$((bad + 1))
    counted "Rust" "$good" "$bad" $status
else
    lacks "Rust" cargo
fi

if ! command -v python3 > /dev/null || ! python3 -c 'import sys; sys.exit(sys.version_info < (3, 11))'; then
    lacks "Python" "python3 (3.11)"
elif ! command -v gcc > /dev/null; then
    lacks "Python" gcc
elif ! gcc -shared -Wl,--whole-archive "$built/libpm_host_c.a" "$built/libpm_device_c.a" -Wl,--no-whole-archive -Wl,-z,noexecstack \
    -o "$folder/libpmhost.so" > "$folder/log" 2>&1; then
    counted "Python" 0 0 1
else
    if command -v cargo > /dev/null; then
        # (why the host refuses stands in the C program in more words)
        PM_ARCHIVES=$built CARGO_TARGET_DIR=$folder/cargo CARGO_PROFILE_DEV_DEBUG=0 CARGO_INCREMENTAL=0 \
            cargo build -q --offline --features linux --example i2c_dev --manifest-path rust/Cargo.toml > "$folder/log" 2>&1 &&
            gcc -O2 -shared -fPIC trials/c/clock.c -o "$folder/clock.so" -ldl > "$folder/log" 2>&1 &&
            PMHOST_LIBRARY=$folder/libpmhost.so python3 -B trials/c/bus.py "$folder/clock.so" rows Rust --without '|refused: ' \
                "$folder/cargo/debug/examples/i2c_dev" > "$folder/log" 2>&1
        status=$?
        read -r good bad < <(sed -n 's/^\([0-9]*\) passed, \([0-9]*\) failed$/\1 \2/p' "$folder/log" | tail -1)
        counted "Rust, over the bench of torture" "${good:-0}" "${bad:-0}" $status
    fi
    # (the processes that the tests start share what is compiled, in a folder that goes with this one)
    pmb=${PMB-$PWD/crates/pmb/out/pmb}
    # Each fifth transfer of margin tests and of probes is tried, each fifth start of a plan, and half of the random boards, lives and
    # events: all where these are set to 1, 1, 100, 150 and 10000.
    export PMHOST_EVERY=${PMHOST_EVERY-5} PMHOST_STARTS=${PMHOST_STARTS-5} PMHOST_BOARDS=${PMHOST_BOARDS-50}
    export PMHOST_BEGINNINGS=${PMHOST_BEGINNINGS-75} PMHOST_EVENTS=${PMHOST_EVENTS-5000}
    PMB=$pmb PMHOST_LIBRARY=$folder/libpmhost.so PYTHONPATH=python/src PYTHONPYCACHEPREFIX=$folder/compiled PYTHONDONTWRITEBYTECODE='' \
        python3 tools/python_tests.py $([ "${PACKAGES_REQUIRED-}" = 1 ] || echo --may-skip) > "$folder/log" 2>&1 < /dev/null
    status=$?
    grep -E '^(not found by|a coroutine|skipped|tests found)' "$folder/log"
    read -r good bad < <(sed -n 's/^\([0-9]*\) passed, \([0-9]*\) failed$/\1 \2/p' "$folder/log" | tail -1)
    counted "Python" "${good:-0}" "${bad:-0}" $status
fi
ended
