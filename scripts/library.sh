#!/bin/sh
# library.sh NAME [TOOLCHAIN]: proves the calls that C makes of the library NAME, the crate NAME_c, and all below it, and writes
# their archive to out/libNAME.a, for every x86-64 processor. Where the libraries below stand as rt built them, rattle makes the
# archive over these, which proves the calls alone; else rt lib does. TOOLCHAIN is a folder that stands for the kit's own. What
# is said goes to standard output. Ends with 0 only if all is proved and the archive is written.
set -u
top=$(dirname -- "$(dirname -- "$(readlink -f -- "$0")")")
. "$top/scripts/build.sh"
toolchain
cd "$top/crates/$1_c" && mkdir -p "$top/out" || exit 2
if ! libraries_stand "$1_c"; then
    rt lib --cpu x86-64 2>&1 || exit
    note_libraries "$1_c"
    [ $# -gt 1 ] || exec cp "out/lib$1_c.a" "$top/out/lib$1.a"
fi
rattle_on "$1_c" build --toolchain "${2:-$kit/toolchain}" --backend llvm --cpu x86-64 -o "$top/out/lib$1.a" 2>&1
