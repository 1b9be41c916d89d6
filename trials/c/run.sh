#!/usr/bin/env bash
# Builds the static libraries of crates/pm_host_c and crates/pm_device_c and, with each compiler of this machine, the programs of
# examples/c and examples/firmware over them; runs them and compares what they write. So it does with the example of rust/, and with the package
# of python/ as it is installed. (tools/packages.sh runs the tests of both, tools/test lint their lints.)
#
#   trials/c/run.sh [--built FOLDER] [--gcc]
#
# With --built the archives of that folder are taken, and nothing is built: libpm_host_c.a and libpm_device_c.a of Rattle's own
# compiler, and llvm_pm_host_c.a and llvm_pm_device_c.a of LLVM, if they are there. Without it they are those of `rt lib`. With
# --gcc only the programs run, built by gcc: no other compiler, no sanitizer, no package, and not the command pmhost.
#
# The examples build with no warning. A program that drops an answer that must be asked builds with one. Random calls of every
# export (trials/c/same.c) over the archives of Rattle's own compiler and over LLVM's answer and write the same. Programs
# of gcc and clang are run once more with their sanitizers, where they have them. The order over a Linux bus runs over the
# bench of `pmhost torture`, with all that a user or a bus does wrong (bus.py).
# The stack that the archive says it needs must be what the header promises. Says a line for each program, what isn't on this
# machine, and last how many passed and failed.
set -u
case " $* " in *" --help "* | *" -h "*) sed -n '2,/^[^#]/s/^# \{0,1\}//p' "$0"; exit 0 ;; esac
built='' only_gcc=''
while [ $# != 0 ]; do
    case $1 in
        --built)
            built=$(realpath -m "${2:-/}")
            [ -f "$built/libpm_host_c.a" ] && [ -f "$built/libpm_device_c.a" ] ||
                { echo "run.sh: give --built FOLDER, one with libpm_host_c.a and libpm_device_c.a" >&2; exit 2; }
            shift 2 ;;
        --gcc) only_gcc=yes; shift ;;
        *) echo "run.sh: '$1': give --built FOLDER, --gcc, or nothing" >&2; exit 2 ;;
    esac
done
cd "$(dirname "$0")/../.."
ulimit -c 0
folder=$(mktemp -d)
trap 'rm -rf "$folder"' EXIT
llvm_wanted=''
if [ -z "$built" ]; then
    built=$folder/built llvm_wanted=yes
    mkdir "$built"
    for each in pm_host_c pm_device_c; do
        (cd crates/$each && rt lib --backend llvm > "$folder/log" 2>&1) || { tail -20 "$folder/log"; exit 1; }
        cp crates/$each/out/lib$each.a "$built/llvm_$each.a"
        (cd crates/$each && rt lib --backend rattle > "$folder/log" 2>&1) || { tail -20 "$folder/log"; exit 1; }
        echo "$each $(grep -o 'frame-bytes=[0-9]* stack-bytes=[0-9]*' "$folder/log")"
        cp crates/$each/out/lib$each.a "$built/"
    done
fi
archives=("$built/libpm_host_c.a" "$built/libpm_device_c.a") llvm=()
[ -f "$built/llvm_pm_host_c.a" ] && [ -f "$built/llvm_pm_device_c.a" ] && llvm=("$built/llvm_pm_host_c.a" "$built/llvm_pm_device_c.a")
. tools/tally.sh

# told NAME STATUS: the line of a program, whose output is in $folder/out and wanted in $folder/wanted
told() {
    if [ "$2" = 0 ] && cmp -s "$folder/wanted" "$folder/out"; then
        tell 0; echo "$1: ok"
    else
        tell 1; echo "$1: FAILED (status $2)"; head -5 "$folder/log" "$folder/out"
    fi
}

# bound OBJECT: the stack that it says it needs is at most what the header promises; of a host's that is what sequences need, and the
# others' is judged by the frames
bound() {
    local says
    says=$(readelf -p .comment "$1" | grep -o 'stack-bytes=[0-9]*' | cut -d= -f2)
    if nm "$1" | grep -q ' T pm_part_'; then
        promised "$1" PM_PART_STACK "$says"
    else
        promised "$1" PM_SEQUENCE_STACK "$says"
        promised "$1" PM_STACK "$(trials/c/stack.py "$1" pm_sequence_next pm_sequence_write_ended pm_sequence_read_ended | cut -d' ' -f1)"
    fi
}

# promised OBJECT NAME BYTES: they are at most what the header promises by this name
promised() {
    local most
    most=$(sed -n "s/^#define $2 \([0-9]*\)$/\1/p" crates/pm_host_c/include/pmhost.h crates/pm_device_c/include/pmpart.h)
    if [ -n "$3" ] && [ "$3" -le "$most" ]; then
        tell 0; echo "$(basename "$1") stack: ok, $3 of $2, $most"
    else
        tell 1; echo "$(basename "$1") stack: FAILED, ${3:-no number} of $2, $most"
    fi
}

# bench: what bus.py needs, the bus of `pmhost torture` as a shared object and the library of the package of python/, where gcc and python3 are
bench() {
    command -v gcc > /dev/null && command -v python3 > /dev/null || { echo "the bench below programs: no gcc or no python3 here"; return 1; }
    [ -f "$folder/clock.so" ] || {
        gcc -O2 -Wall -Wextra -Werror -shared -fPIC trials/c/clock.c -o "$folder/clock.so" -ldl &&
        gcc -shared -Wl,--whole-archive "${archives[@]}" -Wl,--no-whole-archive -Wl,-z,noexecstack -o "$folder/libpmhost.so"
    } > "$folder/log" 2>&1 || { told "the bench below programs" build; return 1; }
}

# bus_rows NAME [--without TEXT] PROGRAM: the orders of a program over the Linux bus (bus.py)
bus_rows() {
    local good bad
    # (an object stands in front of the sanitizers' own)
    PMHOST_LIBRARY=$folder/libpmhost.so ASAN_OPTIONS=verify_asan_link_order=0 \
        python3 -B trials/c/bus.py "$folder/clock.so" rows "$@" > "$folder/log" 2>&1
    read -r good bad < <(sed -n 's/^\([0-9]*\) passed, \([0-9]*\) failed$/\1 \2/p' "$folder/log" | tail -1)
    passed=$((passed + ${good:-0})) failed=$((failed + ${bad:-1}))
    [ "${bad:-1}" = 0 ] || cat "$folder/log"
    echo "$1 Linux bus: ${good:-no} rows"
}

# bus_program NAME COMPILER: the order over the Linux bus
bus_program() {
    bench || return
    $2 $strict $headers examples/c/i2c_dev.c "${archives[@]}" -o "$folder/program" > "$folder/log" 2>&1 || { told "$1 Linux bus" build; return; }
    bus_rows "$1" "$folder/program"
}

# rust_bus: the order of the Rust crate; why the host refuses stands in the C program in more words
rust_bus() {
    bench || return
    if ! cargo build -q --offline --manifest-path rust/Cargo.toml --features linux --example i2c_dev > "$folder/log" 2>&1; then
        told "Rust Linux bus" build; return
    fi
    bus_rows Rust --without '|refused: ' "$CARGO_TARGET_DIR/debug/examples/i2c_dev"
}

# program NAME WANTED COMPILER SOURCES .. -- ARGUMENTS ..
program() {
    local name=$1 wanted=$2 compiler=$3; shift 3
    local sources=()
    while [ "$1" != -- ]; do sources+=("$1"); shift; done
    shift
    cp "$wanted" "$folder/wanted"; : > "$folder/out"
    if ! $compiler $headers "${sources[@]}" "${archives[@]}" -o "$folder/program" > "$folder/log" 2>&1; then
        told "$name" build; return
    fi
    timeout 300 "$folder/program" "$@" > "$folder/out" 2> "$folder/log"
    told "$name" $?
}

# The calls whose answer must be asked.
asked_calls() {
    cat << 'END'
pm_host_new(&host, 0x58, 1, 3)
pm_host_set_limits(&host, 0, 3135000, 3465000)
pm_host_order(&host, 0, PM_VOUT_COMMAND, 0x34CD)
pm_host_order_microvolts(&host, 0, PM_VOUT_COMMAND, 3300000)
pm_host_check(&host, 0, PM_VOUT_COMMAND)
pm_host_learn(&host, 0)
pm_host_clear(&host, 0)
pm_host_store(&host)
pm_host_restore(&host)
pm_host_run(&host, 0, 0, 0).kind
pm_course_survey(&course, 0, 8)
pm_course_words(&course, 0, &wanted, 8)
pm_course_microvolts(&course, 0, PM_VOUT_COMMAND, 3300000, 8)
pm_course_power(&course, 0, 0x80, 8)
pm_course_want(&course, PM_VOUT_MAX, 3500000)
pm_course_accept(&course, &host, 3000)
pm_course_frame(&course, &host, &sending)
pm_course_goal(&course, &host, PM_VOUT_COMMAND, &word)
pm_host_run_course(&host, &course, 0, 0, 0).kind
pm_sequence_judge(&record, &host, 0x1000, &judgement)
pm_paged_request(0x58, 0, 0x40, 2, &sending)
pm_read_paged(0x58, 0, 0x40, 2, sending.bytes, 5, &block)
pm_ask_paged(0x58, 0, 0x02, 1, 0, 0, &block)
pm_sequence_next(&sequence, &host, &step, 1, &record, 1, &sending)
pm_run_sequence(&sequence, hosts, 0, 1, &step, 1, &record, 1, 0, 0, 0, 0)
END
}

# dropped NAME COMPILER: of each call, a program that drops its answer is refused for that, and one that asks it isn't
dropped() {
    local call before='#include "pmhost.h"
static pm_host host;
static pm_wanted wanted;
static pm_course course;
static pm_sending sending;
static uint16_t word;
static pm_judgement judgement;
static pm_block block;
static pm_sequence sequence;
static pm_sequence_step step;
static pm_sequence_record record;
static pm_host *const hosts[1] = {&host};
int main(void) { (void)host; (void)wanted; (void)course; (void)sending; (void)word; (void)judgement; (void)block;
(void)sequence; (void)step; (void)record; (void)hosts;' row=0
    while read -r call; do
        row=$((row + 1))
        echo "$before return $call; }" > "$folder/asks.c"
        echo "$before ${call%.kind}; return 0; }" > "$folder/drops.c"
        if $2 $headers -Werror=unused-result -c "$folder/asks.c" -o "$folder/object" > "$folder/log" 2>&1 &&
            ! $2 $headers -Werror=unused-result -c "$folder/drops.c" -o "$folder/object" > "$folder/log" 2>&1 &&
            grep -q 'unused-result' "$folder/log"; then
            tell 0
        else
            tell 1; echo "$1, a dropped ${call%%(*}: FAILED, no warning"; cat "$folder/log"
        fi
    done < <(asked_calls)
    echo "$1, dropped answers: $row rows"
}

# snippets NAME COMPILER: the C of docs/c.md builds with no warning
snippets() {
    {
        printf '#include "pmhost_patient.h"\n#include <stddef.h>\nextern pm_host host;\nvoid log_line(const char *line);\n'
        printf 'enum { STEPS = 3 };\nextern pm_course course;\nextern pm_sequence sequence;\nextern pm_sequence_step steps[STEPS];\n'
        printf 'extern pm_sequence_record records[STEPS];\nvoid begin_transfer(const pm_sending *frame);\nvoid begin_timer(uint32_t milliseconds);\n'
        printf 'void list_ended(uint8_t number, const pm_sequence_said *said);\nstruct heard { uint8_t acked; uint8_t bytes[8]; uint64_t count; };\nextern struct heard transfer;\n'
        printf 'uint32_t milliseconds(void *context);\nvoid wait_for(void *context, uint32_t milliseconds);\n'
        printf 'uint8_t write_to_bus(void *context, const uint8_t *bytes, uint64_t count);\n'
        printf 'uint64_t read_from_bus(void *context, const uint8_t *request, uint64_t count, uint8_t *answer, uint64_t room);\n'
        awk '/^```c$/ {print "int snippet_" ++count "(void);\nint snippet_" count "(void) {"; within = 1; next}
            /^```$/ && within {print "return 1; }"; within = 0}
            within {print}' docs/c.md
    } > "$folder/snippets.c"
    : > "$folder/wanted"; : > "$folder/out"
    grep -q pm_run_sequence "$folder/snippets.c" &&
        $2 $headers -Wall -Wextra -Wconversion -Wpedantic -Werror -c "$folder/snippets.c" \
        -o "$folder/object" > "$folder/log" 2>&1
    told "$1 docs/c.md" $?
}

mkdir "$folder/objects"
for each in "${archives[@]}"; do
    size -t "$each" | awk -v name="$(basename "$each")" 'END {print name ": " $1 " bytes of text"}'
    (cd "$folder/objects" && ar x "$each")
done
headers="-Icrates/pm_host_c/include -Icrates/pm_device_c/include"
for object in "$folder"/objects/*; do bound "$object"; done
if [ ${#llvm[@]} = 0 ]; then
    if [ -n "$llvm_wanted" ]; then
        tell 1; echo "LLVM's archives: FAILED, rt lib left none to compare"
    elif [ -z "$only_gcc" ]; then
        echo "LLVM's archives: --built FOLDER has none to compare"
    fi
fi
printf 'first' > "$folder/same.wanted"
strict="-Wconversion -Wpedantic"
firmware="examples/firmware/main.c examples/firmware/simulated_bus.c examples/firmware/hosted.c"
compilers="gcc clang g++ clang++"
[ -z "$only_gcc" ] || compilers=gcc
for each in $compilers; do
    command -v $each > /dev/null || { echo "$each: not on this machine"; continue; }
    case $each in *++) flags="-x c++ -std=c++17" rest="-x none" ;; *) flags=-std=c11 rest= ;; esac
    options=("-O2 -Wall -Wextra -Werror")
    case $each$only_gcc in gcc | clang)
        sanitizers="-g -fsanitize=address,undefined -fno-sanitize-recover=all"
        if echo 'int main(void){return 0;}' | $each -x c $sanitizers - -o "$folder/probe" 2> /dev/null; then
            options+=("-O1 $sanitizers")
        else
            echo "$each: no sanitizers"
        fi ;;
    esac
    dropped $each "$each $flags"
    snippets $each "$each $flags"
    for option in "${options[@]}"; do
        compiler="$each $option $flags"
        name=$each; case $option in *sanitize*) name="$each, sanitized" ;; esac
        program "$name order" examples/c/order.expected "$compiler $strict" examples/c/order.c $rest --
        program "$name part" examples/c/part.expected "$compiler $strict" examples/c/part.c $rest --
        program "$name maker" examples/c/maker.expected "$compiler $strict" examples/c/maker.c $rest --
        program "$name pm_target" trials/c/rows/target_rows.expected "$compiler $strict" trials/c/rows/target_rows.c $rest --
        program "$name pm_host_run" trials/c/rows/run_rows.expected "$compiler $strict" trials/c/rows/run_rows.c $rest --
        program "$name ON_OFF_CONFIG" trials/c/rows/on_off_rows.expected "$compiler $strict" trials/c/rows/on_off_rows.c $rest -- trials/c/rows/on_off.txt
        program "$name courses" trials/course/rows.expected "$compiler $strict" trials/course/rows.c $rest -- trials/course/rows.txt trials/course/accept.txt
        program "$name sequences" trials/sequences_c/rows.expected "$compiler $strict" trials/sequences_c/rows.c $rest --
        program "$name pm_patient_run" trials/c/rows/patient_rows.expected "$compiler $strict" trials/c/rows/patient_rows.c $rest -- trials/c/rows/patient.txt
        program "$name both ends" examples/c/faults.expected "$compiler $strict" examples/c/faults.c $rest --
        program "$name HAL" examples/c/hal_bus.expected "$compiler $strict" examples/c/hal_bus.c $rest --
        program "$name rail" examples/c/rail.expected "$compiler $strict" examples/c/rail.c $rest --
        program "$name bring-up" examples/c/bring_up.expected "$compiler $strict" examples/c/bring_up.c $rest --
        case $each in gcc | clang)
            program "$name firmware" examples/firmware/console.expected "$compiler $strict -Iexamples/firmware" $firmware --
            program "$name field" trials/field/rows.expected "$compiler $strict" trials/field/{rows,field,frames}.c -- trials/field/rows.txt
            awk '/^```C$/ {within = 1; next} /^```$/ {within = 0} within' docs/c.md > "$folder/two_rails.c"
            program "$name two rails of docs/c.md" trials/field/two_rails.expected "$compiler $strict" "$folder/two_rails.c" trials/field/{two_rails,field,frames}.c -- ;;
        esac
        # Random calls over the archive of either compiler write one line, whoever compiled them.
        if [ "$(cat "$folder/same.wanted")" = first ]; then
            $compiler $headers trials/c/same.c $rest "${archives[@]}" -o "$folder/program" > "$folder/log" 2>&1
            "$folder/program" 1 2 > "$folder/same.wanted" && cat "$folder/same.wanted"
        fi
        program "$name random calls" "$folder/same.wanted" "$compiler" trials/c/same.c $rest -- 1 2
        if [ ${#llvm[@]} != 0 ]; then
            kept=("${archives[@]}"); archives=("${llvm[@]}")
            program "$name random calls, LLVM" "$folder/same.wanted" "$compiler" trials/c/same.c $rest -- 1 2
            archives=("${kept[@]}")
        fi
        case $each in gcc | clang)
            bus_program "$name" "$compiler" ;;
        esac
    done
done
if [ -n "$only_gcc" ]; then
    end_tally; exit
fi

# installed NAME WANTED SOURCE WORDS ..: a program over what packaging/install.sh installs, found by pkg-config
installed() {
    local name="installed $1" wanted=$2 source=$3; shift 3
    cp "$wanted" "$folder/wanted"; : > "$folder/out"
    if ! gcc -O2 -Wall -Wextra -Werror "$source" "$@" -o "$folder/program" > "$folder/log" 2>&1; then
        told "$name" build; return
    fi
    LD_LIBRARY_PATH=$folder/prefix/lib "$folder/program" > "$folder/out" 2> "$folder/log"
    told "$name" $?
}

if command -v pkg-config > /dev/null && command -v gcc > /dev/null; then
    mkdir -p "$folder/prefix/lib"; echo kept > "$folder/prefix/lib/other"
    packaging/install.sh "$folder/prefix" --library --archives "$built" > "$folder/log" 2>&1 || told "installed" install
    export PKG_CONFIG_PATH=$folder/prefix/lib/pkgconfig
    order="examples/c/order.expected examples/c/order.c" part="examples/c/part.expected examples/c/part.c"
    ends="examples/c/faults.expected examples/c/faults.c"
    installed "order, shared" $order $(pkg-config --cflags --libs pmhost)
    installed "order, static" $order $(pkg-config --cflags pmhost) "$folder/prefix/lib/libpmhost.a"
    installed "part, shared" $part $(pkg-config --cflags --libs pmpart)
    installed "part, static" $part $(pkg-config --cflags pmpart) "$folder/prefix/lib/libpmpart.a"
    installed "both ends, shared" $ends $(pkg-config --cflags --libs pmhost pmpart)
    installed "both ends, static" $ends $(pkg-config --cflags pmhost pmpart) "$folder/prefix/lib/libpmhost.a" "$folder/prefix/lib/libpmpart.a"
    # An uninstall takes away just what was put.
    packaging/install.sh "$folder/prefix" --uninstall > "$folder/log" 2>&1
    (cd "$folder/prefix" && find . -type f) > "$folder/out"; echo ./lib/other > "$folder/wanted"
    told "uninstalled" $?
else
    echo "pkg-config: not on this machine"
fi

# packaged NAME WORDS ..: a package's own tests, which say how it ended by their status
packaged() {
    local name=$1; shift
    : > "$folder/wanted"; : > "$folder/out"
    "$@" > "$folder/log" 2>&1
    told "$name" $?
}

if command -v cargo > /dev/null; then
    export PM_ARCHIVES=$built CARGO_TARGET_DIR=$folder/cargo
    cp examples/c/order.expected "$folder/wanted"
    cargo run -q --offline --manifest-path rust/Cargo.toml --example order > "$folder/out" 2> "$folder/log"
    told "Rust order" $?
    rust_bus
else
    echo "cargo: not on this machine"
fi
if command -v python3 > /dev/null && python3 -c 'import venv, ensurepip' 2> /dev/null; then
    packaged "Python package, installed" sh -c "python3 -m venv '$folder/venv' && cp -r python '$folder/python' &&
        PMHOST_ARCHIVES='$built' '$folder/venv/bin/pip' install --no-index '$folder/python' &&
        cp '$folder'/venv/lib/python3*/site-packages/pmhost/libpmhost.so '$folder/venv/'"
    packaged "Python package, its command" sh -c "cd '$folder' && venv/bin/pmhost -b model --outputs 1 --no-limit set 0 3.3V"
else
    echo "python3 with venv: not on this machine"
fi
end_tally
