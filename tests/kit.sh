# To be read by a script that has set `top`, the repository's folder: what scripts/build.sh has (kit, tools, parts, clang,
# lld, start, contents, current, build, build_program, make_library), and how C is compiled: compile, link.
# Needs the toolchain and a POSIX shell with the usual tools, on x86-64.
. "$top/scripts/build.sh"
toolchain

# compile FILE.c OBJECT [FLAG..], and link PROGRAM OBJECT..: for release, with no header of the machine's own
compile() {
    source=$1 object=$2
    shift 2
    "$clang" --target=x86_64-unknown-linux-gnu -O2 -fPIC -std=c11 -Wall -Wextra -Werror -ffreestanding -nostdinc \
        -isystem "$top/tests/c/bare" -I "$top/include" "$@" -c "$source" -o "$object"
}
link() {
    linked=$1
    shift
    "$lld" -pie --dynamic-linker /lib64/ld-linux-x86-64.so.2 -o "$linked" "$parts/Scrt1.o" "$parts/crti.o" \
        "$parts/crtbeginS.o" "$@" "$parts/libc.so.6" "$parts/libc_nonshared.a" "$parts/libgcc.a" \
        "$parts/crtendS.o" "$parts/crtn.o"
}
