#!/usr/bin/env bash
# Builds the static libraries of crates/pm_host_c and crates/pm_device_c for each processor that they are tried on, with their
# programs; runs these under emulators, compares what they write byte for byte with x86-64's, and prints a table.
#
#   trials/c/targets.sh [--out FOLDER] [--built FOLDER] [--seeds N] [TARGET ..]
#
# TARGET is a name of the table; all if left out. The programs are an order and both ends under faults (examples/c), the
# firmware (examples/firmware), and N seeds of trials/c/same.c, 11 if left out. With --out, FOLDER gets for each target
# the archives, the headers and a line of facts; and where they are compiled for size, those for speed as fast/. With --built the archives and modules of the toolchain are kept in a FOLDER,
# and taken from there where it has them: else each call proves both libraries and builds them, four times.
#
# What a library is on other processors than x86-64, aarch64 Linux and wasm64 is tested, not proved. Says a line for
# each comparison, what isn't on this machine, and last how many passed and failed.
set -u
case " $* " in *" --help "* | *" -h "*) sed -n '2,/^[^#]/s/^# \{0,1\}//p' "$0"; exit 0 ;; esac
. "$(dirname "$0")/targets_of.sh"
out='' built='' seeds=11
while case ${1-} in --*) true ;; *) false ;; esac; do
    case "$1 ${2:+.}" in
        "--out ." | "--built .") mkdir -p "$2"; declare "${1#--}=$(realpath "$2")" ;;
        "--seeds .") seeds=${2//[!0-9]/x} ;;
        *) echo "targets.sh: $1: give --out FOLDER, --built FOLDER, --seeds N and names of targets" >&2; exit 2 ;;
    esac
    shift 2
done
case $seeds in *x* | 0) echo "targets.sh: --seeds: give a number, from 1 on" >&2; exit 2 ;; esac
for each in "$@"; do
    case " $names " in *" $each "*) ;; *) echo "targets.sh: no target $each: give some of $names" >&2; exit 2 ;; esac
done
cd "$(dirname "$0")/../.."
command -v rt > /dev/null || { echo "targets.sh: the toolchain's rt isn't on this machine" >&2; exit 1; }
kit=$(dirname "$(dirname "$(realpath "$(command -v rt)")")")
clang=$kit/toolchain/bin/clang
folder=$(mktemp -d)
trap 'rm -rf "$folder"' EXIT
built=${built:-$folder/built}
mkdir -p "$built"

# mirror: the toolchain's folder by links, whose clang keeps the module that it compiles, and its words
mirror() {
    local each
    mkdir -p "$folder/kit/bin" "$folder/kit/toolchain/bin"
    for each in "$kit"/*; do
        case $(basename "$each") in bin | toolchain) ;; *) ln -s "$each" "$folder/kit/" ;; esac
    done
    ln -s "$kit"/bin/* "$folder/kit/bin/"
    ln -s "$kit"/toolchain/lib "$folder/kit/toolchain/"
    ln -s "$kit"/toolchain/bin/* "$folder/kit/toolchain/bin/"
    rm "$folder/kit/bin/rt" "$folder/kit/bin/rtlib.py" "$folder/kit/toolchain/bin/clang"
    cp "$kit/bin/rt" "$kit/bin/rtlib.py" "$folder/kit/bin/"
    cat > "$folder/kit/toolchain/bin/clang" << END
#!/usr/bin/env bash
case " \$* " in *" -c "*) for each in "\$@"; do
    case \$each in *.bc | *.ll) cp "\$each" '$folder/module.bc'; printf '%s\n' "\$@" > '$folder/module.words' ;; esac
done ;; esac
exec '$clang' "\$@"
END
    chmod +x "$folder/kit/toolchain/bin/clang"
}

# prove NAME WORDS ..: the archives that the toolchain builds, with their modules, where they aren't there yet; what is the
# part's is NAME.part. The archives of Rattle's own compiler have no module, so the toolchain itself builds them, and what
# they stand on with what other copies of the repository kept.
prove() {
    local name=$1 crate kept by=$folder/kit; shift
    for crate in pm_host_c pm_device_c; do
        kept=$built/$name; [ $crate = pm_device_c ] && kept=$kept.part
        [ -f "$kept.a" ] && continue
        if [ $name = x86-64 ]; then by=$kit; elif [ ! -d "$by" ]; then mirror; fi
        rm -f "$folder"/module.bc "$folder"/module.words
        if ! (cd crates/$crate && "$by/bin/rt" lib "$@") > "$folder/log" 2>&1; then
            tail -5 "$folder/log"; echo "targets.sh: $crate isn't built for $name" >&2; exit 1
        fi
        if [ -f "$folder/module.bc" ]; then
            cp "$folder/module.bc" "$kept.bc"
            cp "$folder/module.words" "$kept.words"
        fi
        # (an archive that stays there is taken for x86-64's)
        mv crates/$crate/out/lib$crate.a "$kept.a"
    done
}

# compile NAME PART: the module after all passes, the archive and the frames, all as text beside the archive; PART is
# empty, or .part
compile() {
    local name=$1 of=$1$2 words=() module
    if [ "${class[$name]}" = kit ]; then
        cp "$built/$of.a" "$folder/$of.a"
        [ -f "$built/$of.bc" ] || return 0
        module=$folder/$of.bc; cp "$built/$of.bc" "$module"
        mapfile -t words < <(grep -vxE -- '-c|-o|-Werror|--sysroot=.*|.*\.(bc|ll|o|s)' "$built/$of.words")
    else
        module=$folder/$of.ll
        read -ra words <<< "${flags[$name]} $plain"
        echo 'int x;' | $clang "${words[@]}" -x c - -S -emit-llvm -o "$folder/$of.like" &&
            trials/c/retarget.py --like "$folder/$of.like" --pointer "${pointer[$name]}" "$folder/module$2.text" "$module" || return 1
        words+=(-x ir)
    fi
    $clang "${words[@]}" "$module" -S -emit-llvm -o "$folder/$of.passed" &&
        $clang "${words[@]}" "$module" -c -fstack-usage -o "$folder/$of.o" || return 1
    [ "${class[$name]}" = kit ] || "$kit/toolchain/bin/llvm-ar" rcs "$folder/$of.a" "$folder/$of.o"
    # (what is compiled for size is there for speed, too)
    case " ${words[*]} " in *" -Os "*)
        rm -f "$folder/$of.fast.a"
        $clang "${words[@]/#-Os/-O2}" "$module" -c -o "$folder/$of.fast.o" &&
            "$kit/toolchain/bin/llvm-ar" rcs "$folder/$of.fast.a" "$folder/$of.fast.o" ;;
    esac
}

# compared NAME WHAT FILE WANTED STATUS: a line for one output
compared() {
    if [ "$5" = 0 ] && cmp -s "$3" "$4"; then echo "$1 $2: ok"; else
        echo "$1 $2: FAILED (status $5)"; head -4 "$3" "$folder/$1.log" | grep -v '^$'
    fi
}

# program NAME WHAT WANTED FLAGS SOURCES ..: builds and runs one program and compares it; what is first becomes wanted
program() {
    local name=$1 what=$2 wanted=$3 more=$4 status; shift 4
    : > "$folder/$name.$what"
    if link "$name" "$folder/$name.$what.run" "$more" "$@" > "$folder/$name.log" 2>&1; then
        run "$name" "$folder/$name.$what.run" > "$folder/$name.$what" 2>> "$folder/$name.log" < /dev/null
        status=$?
    else
        status=build
    fi
    case $wanted in "$folder"/*) [ -f "$wanted" ] || cp "$folder/$name.$what" "$wanted" ;; esac
    compared "$name" "$what" "$folder/$name.$what" "$wanted" "$status"
}

# What is counted by itself: an order within limits in microvolts, a course to one voltage, a list of four rails that are looked at; and
# the calls that each makes.
whats="order course list"
declare -A firmware=([order]=1 [course]=2 [list]=3) begins=([order]=0x80 [course]=0x80 [list]=0x00) calls=(
    [order]="pm_host_new pm_host_set_limits pm_host_learn pm_host_order_microvolts pm_host_frame pm_host_write_ended pm_host_read_ended"
    [course]="pm_host_new pm_host_set_limits pm_course_microvolts pm_course_frame pm_course_after_write pm_course_after_read pm_course_ended"
    [list]="pm_host_new pm_host_set_limits pm_sequence_new pm_sequence_next pm_sequence_write_ended pm_sequence_read_ended")
# What isn't the library's of such a program: its own functions, the header's and the part's.
own='^(main|work|put|ask|pause|bus_write|bus_read|make|slot|pec8|console_put|pm_(run_sequence|carry_out|host_run|host_run_course|answer|was_acked|sets|turns))([.]|$)'

# instructions NAME WHAT: how many instructions of the library, and of the C library for it, a round takes: that of four less two
instructions() {
    local name=$1 count=() each program=$folder/$1.$2.counted
    [ -n "${counter[$name]}" ] || { echo -; return; }
    for each in 2 4; do
        link "$name" "$program" "-DFW=${firmware[$2]} -DSTART_OP=${begins[$2]} -DROUNDS=$each" trials/c/firmware/fw.c trials/c/firmware/tpart.c \
            > "$program.log" 2>&1 && mkfifo "$program.trace" || { echo -; return; }
        awk -v own="$own" '/^Trace/ && $NF !~ own {n++} END {print n + 0}' "$program.trace" > "$program.count" &
        run "$name" "$program" -singlestep -d exec,nochain -D "$program.trace" > /dev/null 2>&1
        wait $!
        count+=("$(cat "$program.count")")
        rm "$program.trace"
    done
    echo $(((count[1] - count[0]) / 2))
}

# flash NAME WHAT: text of the calls that it makes, with all below them
flash() {
    if [ -n "${linker[$1]}" ] && [ -f "$folder/$1.passed" ] &&
        ${linker[$1]} -r --gc-sections $(printf -- '-u %s ' ${calls[$2]}) "$folder/$1.a" -o "$folder/$1.alone" 2> /dev/null; then
        size "$folder/$1.alone" | awk 'END {print $1}'
    else
        echo -
    fi
}

# deepest NAME EXPORT ..: the stack of a call and then of each export that the header promises by itself, by the frames
deepest() {
    local of=$1; shift
    if [ -f "$folder/$of.passed" ]; then
        trials/c/stack.py --frames "$folder/$of.su" --each "${call[${of%.part}]-0}" "$folder/$of.passed" "$@" 2>&1
    else
        trials/c/stack.py "$folder/$of.a" "$@" 2>&1
    fi
}

# most NUMBER ..: the greatest
most() {
    printf '%s\n' "$@" | sort -n | tail -1
}

# measured NAME: text of the host's archive; the stack of a host's call, of pm_refusal_name and of a part's call; then flash, stack and
# instructions of an order, a course and a list
measured() {
    local name=$1 text naming order frame write read next hear_write hear_read others what
    text=$(size -t "$folder/$name.a" 2> /dev/null | awk 'END {print $1}')
    case $name in wasm*) text=$(wc -c < "$folder/$name.o") ;; esac
    read -r others naming order frame write read next hear_write hear_read <<< "$(deepest "$name" pm_refusal_name pm_host_order_microvolts \
        pm_course_frame pm_course_after_write pm_course_after_read pm_sequence_next pm_sequence_write_ended pm_sequence_read_ended)"
    frame=$(most "$frame" "$write" "$read")
    echo "$text $(most "$others" "$order" "$frame") $naming $(deepest "$name.part")" $(for what in $whats; do flash "$name" $what; done) \
        "$order $frame $(most "$next" "$hear_write" "$hear_read")" $(for what in $whats; do instructions "$name" $what; done)
}

# within NAME: the stack is at most what the header promises
within() {
    local host naming part list most=() each
    read -r _ host naming part _ _ _ _ _ list _ < "$folder/$1.measured"
    for each in PM_STACK PM_NAME_STACK PM_SEQUENCE_STACK PM_PART_STACK; do
        most+=("$(sed -n "s/^#define $each \([0-9]*\)$/\1/p" crates/pm_host_c/include/pmhost.h crates/pm_device_c/include/pmpart.h)")
    done
    if { [ "$host" -le "${most[0]}" ] && [ "$naming" -le "${most[1]}" ] && [ "$list" -le "${most[2]}" ] && [ "$part" -le "${most[3]}" ]; } 2> /dev/null; then
        echo "$1 stack: ok"
    else
        echo "$1 stack: FAILED, $host of ${most[0]}, $naming of ${most[1]}, $list of ${most[2]} and $part of ${most[3]}"
    fi
}

# target NAME: all of one target, its lines on standard output
target() {
    local name=$1
    { compile "$name" "" && compile "$name" .part; } > "$folder/$name.log" 2>&1 ||
        { echo "$name build: FAILED"; head -4 "$folder/$name.log"; return; }
    program "$name" order examples/c/order.expected "" examples/c/order.c
    program "$name" faults examples/c/faults.expected "" examples/c/faults.c
    program "$name" firmware examples/firmware/console.expected "" examples/firmware/main.c examples/firmware/simulated_bus.c
    program "$name" same "$folder/same.wanted" "-DSEEDS=$seeds" trials/c/same.c
    measured "$name" > "$folder/$name.measured"
    within "$name"
}

# leave NAME: the archives, the headers and the line of facts
leave() {
    local name=$1 text host naming part flashes stacks counts
    read -r text host naming part flashes < "$folder/$name.measured"
    read -ra flashes <<< "$flashes"
    stacks=("${flashes[@]:3:3}") counts=("${flashes[@]:6}")
    mkdir -p "$out/$name"
    cp "$folder/$name.a" "$out/$name/libpm_host_c.a"
    cp "$folder/$name.part.a" "$out/$name/libpm_device_c.a"
    cp crates/pm_host_c/include/pmhost.h crates/pm_device_c/include/pmpart.h "$out/$name/"
    rm -rf "$out/$name/fast"
    if [ -f "$folder/$name.fast.a" ]; then
        mkdir "$out/$name/fast"
        cp "$folder/$name.fast.a" "$out/$name/fast/libpm_host_c.a"
        cp "$folder/$name.part.fast.a" "$out/$name/fast/libpm_device_c.a"
    fi
    echo "commit=$(git rev-parse HEAD) toolchain=$(rt version | tr ' ' '-') target=$name proof=${class[$name]} flags=$(tr ' ' ',' <<< "${flags[$name]}")" \
        "text=$text order=${flashes[0]} course=${flashes[1]} list=${flashes[2]} stack-host=$host stack-name=$naming stack-list=${stacks[2]} stack-part=$part" \
        "instructions=$(IFS=,; echo "${counts[*]}") sha256=$(sha256sum "$folder/$name.a" | cut -d' ' -f1) sha256-part=$(sha256sum "$folder/$name.part.a" | cut -d' ' -f1)" \
        > "$out/$name/facts"
}

# table: what the page shows
table() {
    local name text naming part numbers
    echo "An order within limits, a course to one voltage, a list of four rails that are looked at:"
    echo "| target | how | archive, bytes | flash of an order, a course, a list | stack | instructions |"
    echo "|---|---|---|---|---|---|"
    for name in $names; do
        [ -f "$folder/$name.measured" ] || continue
        read -r text _ naming part numbers < "$folder/$name.measured"
        read -ra numbers <<< "$numbers"
        echo "| ${title[$name]} | ${meaning[${class[$name]}]} | $text | ${numbers[*]:0:3} | ${numbers[*]:3:3} | ${numbers[*]:6:3} |"
    done
}

prove x86-64 --backend rattle
prove x86-64-llvm
prove aarch64-linux --target aarch64-unknown-linux-gnu
prove wasm64 --target wasm64-unknown-unknown
for each in "" .part; do
    $clang -x ir "$built/x86-64-llvm$each.bc" -S -emit-llvm -Xclang -disable-llvm-passes -o "$folder/module$each.text" 2> /dev/null
done
target x86-64 > "$folder/x86-64.said"
wanted_targets=()
for each in $names; do
    [ "$each" = x86-64 ] || case " ${*:-$names} " in *" $each "*) wanted_targets+=("$each") ;; esac
done
for each in "${wanted_targets[@]}"; do
    lacking=$(lacks "$each")
    if [ -n "$lacking" ]; then echo "$each: not on this machine: $lacking" > "$folder/$each.said"; continue; fi
    while [ "$(jobs -rp | wc -l)" -ge "$(nproc)" ]; do wait -n; done
    target "$each" > "$folder/$each.said" &
done
wait
for each in $names; do
    [ -f "$folder/$each.said" ] && cat "$folder/$each.said"
    [ -n "$out" ] && [ -f "$folder/$each.measured" ] && leave "$each"
done
echo "x86-64, the last of $seeds seeds: $(tail -1 "$folder/same.wanted")"
table
. tools/tally.sh
passed=$(cat "$folder"/*.said | grep -c ': ok$') failed=$(cat "$folder"/*.said | grep -c ': FAILED')
end_tally
