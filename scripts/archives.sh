# What ./archive, ./page and tests/targets share. To be read by a script that has set `top`, the repository's folder, and
# `work`, a folder for temporary files, and that has read tests/kit.sh.
# Sets targets, the table of processors, and host, what a program asks of its machine; defines take_module, same_object,
# target_names, target_row, compile_module, archive_of.
targets=$top/scripts/targets.txt
host='read write rattle_arg rattle_errno rattle_set_errno'

# is_program NAME: it is a program, and no library
is_program() { [ -f "$top/crates/$1/src/main.rt" ]; }

# make_module NAME: keeps the LLVM module that the toolchain makes of the library or program NAME; sets module. The library, or
# the program, is proved and built first, where its crates changed.
make_module() { if is_program "$1"; then program_module "$1"; else library_module "$1"; fi; }

# library_module NAME: the same proof makes the module and the library's own archive, which then is current too
library_module() {
    module=$top/out/module/$1.bc own=$top/out/lib$1.a
    current "$own" || rm -f "$top/out/made/$1.bc"
    current "$module" || rm -f "$module"
    build "$module" keep_archived "$1" || return 1
    ! current "$module" || current "$own" || note "$own"
}

# program_module NAME: the program is proved and lowered once more, over the libraries that it was built over. That its module
# is the program's own too is for take_module to see.
program_module() {
    module=$work/$1.bc
    libraries_stand "$1" || rm -f "$top/out/made/$1"
    build_program "$1" || return 1
    rm -f "$module"
    keep_lowered "$1" >"$work/lowered" 2>&1 || :
    [ ! -f "$module" ] || return 0
    tail -n 3 "$work/lowered" >&2
    say "no module can be made of $1"
    return 1
}

# keep_archived NAME: the library's archive, the module kept
keep_archived() {
    mkdir -p "$top/out/module" && keeping "$clang" && sh "$top/scripts/library.sh" "$1" "$kept_by"
}

# keep_lowered NAME: the program's module kept, and nothing compiled
keep_lowered() {
    keeping false && cd "$top/crates/$1" && rattle_on "$1" build --toolchain "$kept_by" --backend llvm -o "$work/$1.o"
}

# keeping COMMAND: the kit's toolchain by links, but for its clang; sets kept_by, its folder. In clang's place stands a script
# that keeps a copy of the module and then is COMMAND. (rattle runs it in a folder of its own, with no environment.)
keeping() {
    kept_by=$work/toolchain
    rm -rf "$kept_by"
    mkdir -p "$kept_by/bin" || return 1
    for part in "$kit/toolchain"/* "$tools"/*; do
        to=$kept_by/${part#"$kit/toolchain/"}
        [ -e "$to" ] || ln -s "$part" "$to" || return 1
    done
    rm "$kept_by/bin/clang"
    printf '#!/bin/sh\ncp module.bc "%s" && exec "%s" "$@"\n' "$module" "$1" >"$kept_by/bin/clang"
    chmod +x "$kept_by/bin/clang"
}

# take_module NAME: the module as text, in $work/NAME.ll, if it is fit to be compiled for another processor: compiled here
# for x86-64 it is the toolchain's own object byte for byte, and it is indifferent to the width of a pointer. Else says why.
# Of a program the whole module, in $work/NAME.whole, gives the program, and $work/NAME.ll is what its main reaches.
take_module() {
    make_module "$1" || return 1
    "$clang" --target=x86_64-unknown-linux-gnu -x ir "$module" -S -emit-llvm -Xclang -disable-llvm-passes -o "$work/$1.ll" || return 1
    if ! same_object "$1" "$work/$1.ll"; then
        echo "${0##*/}: compiled for x86-64, the module of $1 does not give the object that the toolchain made" >&2
        return 1
    fi
    if is_program "$1"; then
        mv "$work/$1.ll" "$work/$1.whole"
        if ! awk -v name="$1" -f "$top/scripts/reach.awk" "$work/$1.whole" "$work/$1.whole" >"$work/$1.ll"; then
            echo "${0##*/}: the module of $1 does not begin as a program does" >&2
            return 1
        fi
    fi
    if ! awk -v host="$host" -f "$top/scripts/pointer_width.awk" "$work/$1.ll" >"$work/$1.width"; then
        head -n 5 "$work/$1.width" >&2
        echo "${0##*/}: the module of $1 leans on the width of a pointer" >&2
        return 1
    fi
}

# same_object NAME TEXT: this module, compiled for x86-64, is the object in the library's own archive, or linked as rt links
# it the program itself
same_object() {
    if is_program "$1"; then
        compile_program "$2" "$work/own.o" && link_program "$work/own.o" "$work/own" && cmp -s "$(program_of "$1")" "$work/own"
    else
        compile_text "$2" x86-64 '' "$work/own.o" && "$tools/llvm-ar" p "$top/out/lib$1.a" "$1_c.o" | cmp -s - "$work/own.o"
    fi
}

# target_row TARGET: its line of the table; sets processor, triple, flags, loads, link_with, asks. Fails where there is none.
target_row() {
    columns=$(awk -F ' *[|] *' -v name="$1" '$1 == name { for (i = 2; i <= 6; i++) print $i }' "$targets")
    [ -n "$columns" ] || return 1
    { read -r processor; read -r triple flags; read -r loads; read -r link_with; read -r asks; } <<END
$columns
END
}

# target_names: the targets in the table's order
target_names() { awk '!/^#/ && NF { print $1 }' "$targets"; }

# compile_text TEXT TARGET SMALL OBJECT [FLAG..]: a module's text compiled for the target, by the toolchain's own flags less
# those that name x86-64, elsewhere than there; for size where SMALL is not empty; with each FLAG too. What clang's front end
# would say of the target is said here: that a function is for size; that no guard page lies below the stack, where there is no
# system; that riscv64 hands back a number of 32 bits with its sign extended. Elsewhere than on x86-64 a pair lies in memory as
# it does there.
compile_text() {
    target_row "$2" || return 1
    level=-O3 size='' probe='' back='' own='' processor_of='s/ "target-cpu"="[^"]*"//'
    [ -z "$3" ] || { level=-Os size=' optsize'; }
    case $triple in *-linux-*) ;; *) probe='s/ "probe-stack"="inline-asm"//' ;; esac
    case $triple in riscv64*) back='s/^define noundef i32 @\([a-z]\)/define noundef signext i32 @\1/' ;; esac
    case $triple in x86_64-* | i686-*) own='-mllvm -no-x86-call-frame-opt' ;; esac
    case $triple in x86_64-*) processor_of='' ;; esac
    sed -e '/^target /d' -e "/^attributes .* \"target-cpu\"=/s/ nounwind/&$size/" -e "$processor_of" -e "$probe" -e "$back" \
        "$1" >"$4.text" && pairs_apart <"$4.text" >"$4.ll" || return 1
    object=$4
    shift 4
    # shellcheck disable=SC2086
    "$clang" --target="$triple" $flags "$level" -ffunction-sections -fdata-sections -mllvm -trap-unreachable \
        -mllvm -no-trap-after-noreturn $own -mllvm -disable-machine-licm -mllvm -disable-postra-machine-licm \
        -mllvm -sink-common-insts=false --no-default-config -no-canonical-prefixes -Werror -Wno-override-module "$@" \
        -c -x ir "$object.ll" -o "$object" || return 1
    rm "$object.text" "$object.ll"
}

# pairs_apart: a module's text for the target's processor
pairs_apart() { case $triple in x86_64-*) cat ;; *) awk -f "$top/scripts/pairs.awk" ;; esac; }

# compile_program TEXT OBJECT, link_program OBJECT PROGRAM: a program's module compiled for x86-64 and linked, as rt does
link_program() {
    "$kit/bin/rattle-link" --target x86_64-unknown-linux-gnu --toolchain "$kit/toolchain" -o "$2" "$1" \
        "$kit/c/libos_c.a" "$kit/c/liblibc_c.a" 2>/dev/null
}
compile_program() { compile_text "$1" x86-64 '' "$2" -fPIE -Xclang -fmerge-functions -mllvm -mergefunc-use-aliases; }

# compile_module NAME TARGET SMALL OBJECT: the same of a module that take_module took
compile_module() { compile_text "$work/$1.ll" "$2" "$3" "$4"; }

# archive_of NAME OBJECT ARCHIVE: an archive of one member, NAME.o, with its index of names
archive_of() {
    mkdir -p "$work/member" && cp "$2" "$work/member/$1.o" && rm -f "$3" || return 1
    (cd "$work/member" && "$tools/llvm-ar" rcsD --format=gnu "$3" "$1.o")
}
