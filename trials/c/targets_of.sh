# The targets of trials/c/targets.sh: what each is, how it is compiled, and how its programs are linked and run.
names="x86-64 x86-64-llvm aarch64-linux wasm64 aarch64-none riscv64-linux cortex-m0 cortex-m3 cortex-m4 cortex-m4f cortex-m33 arm-linux rv32imac wasm32"
declare -A class title flags pointer linker counter call meaning
meaning=([kit]="proved, compiled by the toolchain" [hand]="the same module, compiled by hand: tested, not proved"
    [rewritten]="rewritten to 32 bits: tested, not proved")
# What the toolchain gives its own compiler, and no division of 128 bits by a call.
plain="--no-default-config -Wno-override-module -ffunction-sections -fdata-sections -mllvm -trap-unreachable -mllvm -no-trap-after-noreturn
 -mllvm -expand-div-rem-bits=64"
plain=${plain//$'\n'/}

# is NAME CLASS POINTER LINKER COUNTER TITLE FLAGS: one target; COUNTER isn't empty where its emulator counts instructions
is() {
    class[$1]=$2 pointer[$1]=$3 linker[$1]=$4 counter[$1]=$5 title[$1]=$6 flags[$1]=$7
}
is x86-64 kit 8 "" yes "x86-64 Linux, Rattle's own compiler" "--backend rattle"
is x86-64-llvm kit 8 ld yes "x86-64 Linux, LLVM" ""
is aarch64-linux kit 8 aarch64-linux-gnu-ld yes "aarch64 Linux" ""
is wasm64 kit 8 "" "" "wasm64" ""
is aarch64-none hand 8 aarch64-linux-gnu-ld yes "aarch64 without a system" "--target=aarch64-none-elf -mstrict-align -march=armv8-a+nofp+nosimd -Os"
is riscv64-linux hand 8 riscv64-linux-gnu-ld yes "riscv64 Linux" "--target=riscv64-unknown-linux-gnu -march=rv64gc -mabi=lp64d -fPIC -O2"
is cortex-m0 rewritten 4 arm-none-eabi-ld yes "Cortex-M0" "--target=thumbv6m-none-eabi -mcpu=cortex-m0 -mfloat-abi=soft -Os"
is cortex-m3 rewritten 4 arm-none-eabi-ld yes "Cortex-M3" "--target=thumbv7m-none-eabi -mcpu=cortex-m3 -mfloat-abi=soft -Os"
is cortex-m4 rewritten 4 arm-none-eabi-ld yes "Cortex-M4, soft float" "--target=thumbv7em-none-eabi -mcpu=cortex-m4 -mfloat-abi=soft -Os"
is cortex-m4f rewritten 4 arm-none-eabi-ld yes "Cortex-M4, hard float" "--target=thumbv7em-none-eabihf -mcpu=cortex-m4 -mfloat-abi=hard -mfpu=fpv4-sp-d16 -Os"
is cortex-m33 rewritten 4 arm-none-eabi-ld yes "Cortex-M33" "--target=thumbv8m.main-none-eabi -mcpu=cortex-m33 -mfloat-abi=soft -Os"
is arm-linux rewritten 4 arm-linux-gnueabihf-ld yes "32-bit ARM Linux" "--target=armv7-unknown-linux-gnueabihf -march=armv7-a -mfpu=vfpv3-d16 -fPIC -O2"
is rv32imac rewritten 4 "riscv64-unknown-elf-ld -m elf32lriscv" yes "RV32IMAC" "--target=riscv32-unknown-elf -march=rv32imac -mabi=ilp32 -Os"
is wasm32 rewritten 4 "" "" "wasm32" "--target=wasm32-unknown-unknown -O2"
call=([x86-64-llvm]=8)

# lacks NAME: the packages of what isn't on this machine, or nothing
lacks() {
    local each tool package needs=()
    case $1 in
        x86-64*) needs=(qemu-x86_64:qemu-user) ;;
        aarch64-linux) needs=(aarch64-linux-gnu-gcc:gcc-aarch64-linux-gnu /usr/aarch64-linux-gnu/lib/libc.a:libc6-dev-arm64-cross qemu-aarch64:qemu-user) ;;
        aarch64-none) needs=(aarch64-linux-gnu-gcc:gcc-aarch64-linux-gnu qemu-system-aarch64:qemu-system-arm) ;;
        riscv64-linux) needs=(riscv64-linux-gnu-gcc:gcc-riscv64-linux-gnu /usr/riscv64-linux-gnu/lib/libc.a:libc6-dev-riscv64-cross qemu-riscv64:qemu-user) ;;
        cortex-*) needs=(arm-none-eabi-gcc:gcc-arm-none-eabi /usr/include/newlib/string.h:libnewlib-arm-none-eabi qemu-system-arm:qemu-system-arm) ;;
        arm-linux) needs=(arm-linux-gnueabihf-gcc:gcc-arm-linux-gnueabihf /usr/arm-linux-gnueabihf/lib/libc.a:libc6-dev-armhf-cross qemu-arm:qemu-user) ;;
        rv32imac) needs=(riscv64-unknown-elf-gcc:gcc-riscv64-unknown-elf "$picolibc:picolibc-riscv64-unknown-elf" qemu-system-riscv32:qemu-system-misc) ;;
        wasm*) needs=(node:nodejs) ;;
    esac
    for each in "${needs[@]}"; do
        tool=${each%:*} package=${each##*:}
        command -v "$tool" > /dev/null || [ -f "$tool" ] || echo -n "$package "
    done
}
picolibc=/usr/lib/picolibc/riscv64-unknown-elf/picolibc.specs
warn="-Wall -Wextra -Werror -Icrates/pm_host_c/include -Icrates/pm_device_c/include -Iexamples/firmware"
bare=trials/c/bare

# link NAME PROGRAM FLAGS SOURCES ..: a program over the target's archives
link() {
    local name=$1 program=$2 more=$3 archives=("$folder/$1.a" "$folder/$1.part.a"); shift 3
    case $name in
        x86-64*) gcc -O2 -static $warn $more "$@" $(hosted "$@") "${archives[@]}" -o "$program" ;;
        aarch64-linux) aarch64-linux-gnu-gcc -O2 -static $warn $more "$@" $(hosted "$@") "${archives[@]}" -o "$program" ;;
        riscv64-linux) riscv64-linux-gnu-gcc -O2 -static $warn $more "$@" $(hosted "$@") "${archives[@]}" -o "$program" ;;
        arm-linux) arm-linux-gnueabihf-gcc -O2 -static $warn $more "$@" $(hosted "$@") "${archives[@]}" -o "$program" ;;
        cortex-m*) arm-none-eabi-gcc $(core "$name") $warn -Os -ffunction-sections -nostartfiles -Wl,--gc-sections $more \
            -T "$(board "$name" "$program" "$@")" "$@" examples/firmware/cortex_m.c $bare/bare.c "${archives[@]}" -o "$program" ;;
        rv32imac) riscv64-unknown-elf-gcc --specs=$picolibc -march=rv32imac -mabi=ilp32 $warn -Os -ffunction-sections -nostartfiles \
            -Wl,--gc-sections $more -T examples/firmware/rv32.ld "$@" examples/firmware/rv32.c $bare/bare.c "${archives[@]}" -o "$program" ;;
        aarch64-none) aarch64-linux-gnu-gcc -march=armv8-a+nofp+nosimd -mgeneral-regs-only -mstrict-align -Os -ffreestanding -nostdinc \
            -I$bare/include $warn -fno-stack-protector -fno-pic -no-pie -static -nostdlib -DBARE_MEMORY $more -T $bare/aarch64.ld "$@" \
            $bare/aarch64.c $bare/bare.c "${archives[@]}" -o "$program" ;;
        wasm*) link_wasm "$name" "$program" "$more" "$@" ;;
    esac
}

# hosted SOURCES ..: the console of the firmware's example under an operating system
hosted() {
    case "$*" in *firmware*) echo examples/firmware/hosted.c ;; esac
}

# board NAME PROGRAM SOURCES ..: the linker script of a Cortex-M. same.c keeps three hosts, all cells and a list, 10.4 of the board's 16 KB,
# and leaves less for the stack than firmware asks: 5.5 KB, where its deepest call takes 4.2 KB on M0. The M33's board starts in its
# secure memory, which stands elsewhere.
board() {
    local name=$1 program=$2 words=(); shift 2
    case "$*" in *same.c*) words+=(-e 's/>= 8192/>= 5500/') ;; esac
    [ "$name" != cortex-m33 ] || words+=(-e 's/ORIGIN = 0x00000000/ORIGIN = 0x10000000/; s/ORIGIN = 0x20000000/ORIGIN = 0x30000000/')
    [ ${#words[@]} != 0 ] || { echo examples/firmware/cortex_m.ld; return; }
    sed "${words[@]}" examples/firmware/cortex_m.ld > "$program.ld"; echo "$program.ld"
}

# core NAME: the words of gcc for a Cortex-M
core() {
    case $1 in
        cortex-m4f) echo "-mthumb -mcpu=cortex-m4 -mfloat-abi=hard -mfpu=fpv4-sp-d16" ;;
        *) echo "-mthumb -mcpu=${1%f} -mfloat-abi=soft" ;;
    esac
}

# link_wasm NAME PROGRAM FLAGS SOURCES ..: by the toolchain's own clang and linker. The archives for wasm64 can be linked by
# the toolchain alone: there they are one module of their own, with the memory, of which the program has the upper half.
link_wasm() {
    local name=$1 program=$2 more=$3 each objects=() steps=; shift 3
    local size=1048576 words=("$folder/$name.a" "$folder/$name.part.a")
    if [ "$name" = wasm64 ]; then
        rm -rf "$program.objects" "$program.both.a"; mkdir "$program.objects"
        for each in "${words[@]}"; do (cd "$program.objects" && "$kit/toolchain/bin/llvm-ar" x "$each") || return 1; done
        "$kit/toolchain/bin/llvm-ar" rcs "$program.both.a" "$program.objects"/* || return 1
        "$kit/bin/rattle-link" --target wasm64-unknown-unknown --toolchain "$kit/toolchain" --memory $size --stack 65536 \
            -o "$program.library" "$program.both.a" || return 1
        words=(--import-memory --initial-memory=$size --max-memory=$size --global-base=$((size / 2)) --no-stack-first --import-undefined)
    fi
    [ "$name" = wasm32 ] && steps="-Dpm_host_write_ended=step_of_write -Dpm_host_read_ended=step_of_read"
    [ "$name" = wasm32 ] && steps="$steps -Dpm_course_write_ended=step_of_course_write -Dpm_course_read_ended=step_of_course_read"
    [ "$name" = wasm32 ] && steps="$steps -Dpm_course_after_write=step_after_course_write -Dpm_course_after_read=step_after_course_read"
    [ "$name" = wasm32 ] && steps="$steps -Dpm_sequence_write_ended=step_of_sequence_write -Dpm_sequence_read_ended=step_of_sequence_read"
    for each in "$@" $bare/bare.c $bare/wasm.c; do
        objects+=("$program.$(basename "$each").o")
        case $each in */wasm.c) steps= ;; esac
        $clang "--target=$name-unknown-unknown" --no-default-config -O2 -nostdinc -I$bare/include $warn -DBARE_MEMORY -Dmain=bare_main $more $steps \
            -c "$each" -o "${objects[-1]}" || return 1
    done
    (exec -a wasm-ld "$clang" -m "$name" --no-entry --export=bare_main -z stack-size=65536 "${objects[@]}" "${words[@]}" -o "$program")
}

# run NAME PROGRAM WORDS ..: under the target's emulator, with more words for it
run() {
    local name=$1 program=$2 bus="-nodefaults -display none -chardev stdio,id=out -semihosting-config enable=on,target=native,chardev=out"; shift 2
    case $name in
        x86-64*) if [ $# = 0 ]; then timeout 900 "$program"; else timeout 900 qemu-x86_64 "$@" "$program"; fi ;;
        aarch64-linux) timeout 900 qemu-aarch64 "$@" "$program" ;;
        riscv64-linux) timeout 900 qemu-riscv64 "$@" "$program" ;;
        arm-linux) timeout 900 qemu-arm "$@" "$program" ;;
        aarch64-none) timeout 900 qemu-system-aarch64 -M virt -cpu cortex-a53 $bus "$@" -kernel "$program" ;;
        cortex-m0) timeout 900 qemu-system-arm -M microbit $bus "$@" -kernel "$program" ;;
        cortex-m3) timeout 900 qemu-system-arm -M mps2-an385 $bus "$@" -kernel "$program" ;;
        cortex-m33) timeout 900 qemu-system-arm -M mps2-an505 $bus "$@" -kernel "$program" ;;
        cortex-m4*) timeout 900 qemu-system-arm -M mps2-an386 $bus "$@" -kernel "$program" ;;
        rv32imac) timeout 900 qemu-system-riscv32 -M virt -bios none $bus "$@" -kernel "$program" ;;
        wasm64) timeout 900 node --no-warnings --experimental-wasm-memory64 $bare/run.mjs "$program" "$program.library" ;;
        wasm32) timeout 900 node --no-warnings $bare/run.mjs "$program" ;;
    esac
}
