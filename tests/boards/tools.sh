# How a C program is built and run for each target of ./archive. To be read by a script that has set `top` and `work`, has read
# tests/kit.sh and scripts/archives.sh, and has set `boards`, the folder of this file. The packages named are Debian's.
# Defines tools_of, have_tools.

# tools_of TARGET PROGRAM: what builds and runs the program there: sets cc, a command that has C sources and archives behind it
# and then -o and a file; run, a command that has that file behind it; and packages, where both are found
tools_of() {
    target_row "$1"
    case $1 in
    x86-64) cc=own_cc run=start packages='' ;;
    i386) cc='i686-linux-gnu-gcc -static -O2 -w' run=qemu-i386 packages='gcc-i686-linux-gnu qemu-user' ;;
    aarch64) cc='aarch64-linux-gnu-gcc -static -O2 -w' run=qemu-aarch64 packages='gcc-aarch64-linux-gnu qemu-user' ;;
    armhf) cc='arm-linux-gnueabihf-gcc -static -mthumb -O2 -w' run=qemu-arm packages='gcc-arm-linux-gnueabihf qemu-user' ;;
    rv64) cc='riscv64-linux-gnu-gcc -static -O2 -w' run=qemu-riscv64 packages='gcc-riscv64-linux-gnu qemu-user' ;;
    rv32imc) cc="mini_gcc riscv64-unknown-elf-gcc $link_with -O2 -w" run=qemu-riscv32 packages='gcc-riscv64-unknown-elf qemu-user' ;;
    wasm32) cc=wasm_cc run="node $boards/wasm.mjs" packages=nodejs ;;
    cortex-*)
        packages='gcc-arm-none-eabi libnewlib-arm-none-eabi qemu-system-arm'
        case $1:$2 in
        cortex-m0:card | cortex-m0:typical) machine=microbit flash='0 256K' ram='0x20000000 16K' ;;
        cortex-m0:* | cortex-m3:*) machine=mps2-an385 flash='0 4M' ram='0x21000000 16M' ;;
        cortex-m4*) machine=mps2-an386 flash='0 4M' ram='0x21000000 16M' ;;
        cortex-m33:*) machine=mps2-an505 flash='0x10000000 4M' ram='0x80000000 16M' ;;
        esac
        cc="board_gcc $link_with -O2 -w" run="qemu-system-arm -M $machine -nographic -monitor none -serial none -semihosting-config enable=on,target=native -kernel"
        ;;
    esac
}

# there COMMAND..: each is on the PATH
there() {
    for word do command -v "$word" >/dev/null 2>&1 || return 1; done
}

# have_tools TARGET: its compiler and its emulator are there
have_tools() {
    tools_of "$1" test
    case $1 in
    x86-64) ;;
    rv32imc) there riscv64-unknown-elf-gcc "$run" ;;
    wasm32) there node ;;
    cortex-*) there arm-none-eabi-gcc qemu-system-arm ;;
    *) there "${cc%% *}" "$run" ;;
    esac
}

# For x86-64 by the toolchain alone. SOURCE.. ARCHIVE.. -o PROGRAM
own_cc() {
    objects='' linked='' n=0
    for word do
        case $word in
        *.c) n=$((n + 1)); compile "$word" "$work/own$n.o"; objects="$objects $work/own$n.o" ;;
        -o) ;;
        *.a) objects="$objects $word" ;;
        -*) ;;
        *) linked=$word ;;
        esac
    done
    # shellcheck disable=SC2086
    link "$linked" $objects
}

# For a board: from reset on, with newlib, in the board's memory
board_gcc() {
    sed -e "s/^    flash : .*/    flash : ORIGIN = ${flash% *}, LENGTH = ${flash#* }/" -e "s/^    ram : .*/    ram : ORIGIN = ${ram% *}, LENGTH = ${ram#* }/" \
        "$top/examples/card/microbit.ld" >"$work/board.ld"
    arm-none-eabi-gcc "$@" --specs=nano.specs --specs=rdimon.specs -nostartfiles -Wl,-z,noexecstack -T "$work/board.ld" "$top/examples/card/start.c"
}

# For a processor without a C library: with mini.c. (Its linker's relaxation does not reach over the large buffers of the tests.)
mini_gcc() {
    "$@" -Wl,--no-relax -ffreestanding -fno-tree-loop-distribute-patterns -nostdlib -nostdinc -isystem "$top/tests/c/bare" "$boards/mini.c" -lgcc
}

# For WebAssembly by the toolchain, with mini.c
wasm_cc() {
    objects='' linked='' n=0
    for word in "$@" "$boards/mini.c"; do
        case $word in
        *.c)
            n=$((n + 1)) objects="$objects $work/wasm$n.o"
            "$clang" --target=wasm32-unknown-unknown -O2 -w -ffreestanding -fno-builtin -nostdinc -isystem "$top/tests/c/bare" -c "$word" -o "$work/wasm$n.o"
            ;;
        *.a) objects="$objects $word" ;;
        -*) ;;
        *) linked=$word ;;
        esac
    done
    # shellcheck disable=SC2086
    "$lld" -flavor wasm --no-entry --export=main -z stack-size=65536 $objects -o "$linked"
}
