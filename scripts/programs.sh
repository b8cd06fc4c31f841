# What the commands share. To be read by a script that has set `top`, the folder that it stands in, and defines `usage`.
# A command ends with 0 if all that it had to say was written, with 1 if not, and with 2 if it was called wrongly; the
# reason then stands on standard error, in a line that begins with the command's name. A signal ends it with 128 and the
# signal's number.
# Sets work, a folder that goes when the script ends, and called, how people call the command; defines fail, misused,
# version, hex_digits, record_bytes, stands, ready, ran, written, and what scripts/build.sh has.
LC_ALL=C
export LC_ALL
true 3>&2 || exec 2>/dev/null # standard error is closed
. "$top/scripts/build.sh"
called=${PUNDALIKET_CALLED:-./${0##*/}}

fail() {
    say "$1"
    exit 1
}

misused() {
    say "$1"
    echo "$(usage | head -n 1); $called --help says more" >&2 || :
    exit 2
}

# version: which Pundaliket this is, and the commit where there is one
version() {
    commit=''
    if [ -f "$top/COMMIT" ]; then
        commit=$(cat "$top/COMMIT")
    elif [ -e "$top/.git" ] && commit=$(git -C "$top" rev-parse --short HEAD 2>/dev/null); then
        git -C "$top" diff --quiet HEAD -- 2>/dev/null || commit="$commit with changes"
    fi
    echo "${0##*/} (Pundaliket) $(cat "$top/VERSION")${commit:+, commit $commit}"
}

case ${1-} in --version) version; exit 0 ;; esac

# Without a folder for temporary files there is no writing below it, and `unkept` says so.
work=$(mktemp -d 2>/dev/null) || work=/dev/null/none
trap 'rm -rf "$work"' EXIT
trap 'exit 129' HUP
trap 'exit 130' INT
trap 'exit 143' TERM

# unkept: fails where no more temporary files can be written
unkept() {
    [ -d "$work" ] || fail "there is no folder for temporary files: ${TMPDIR:-/tmp} cannot be written (TMPDIR names another)"
    room "$work" "${TMPDIR:-/tmp}" || fail "temporary files are needed, and $reason (TMPDIR names another folder)"
}

# A run takes 12,288 bytes (document 01). One more byte tells that an input is longer, and no more is read.
most=12289

# hex_digits PLACE ARGUMENT FROM COUNT WHAT: sets digits to those of ARGUMENT from character FROM on, 0x in front or not;
# WHAT has COUNT of them. PLACE says which argument it is.
hex_digits() {
    digits=$2 from=$3
    while [ "$from" -gt 1 ]; do digits=${digits#?} from=$((from - 1)); done
    case $digits in 0[xX]*) digits=${digits#??} ;; esac
    good=${digits%%[!0-9A-Fa-f]*}
    if [ "$good" != "$digits" ]; then
        bad=${digits#"$good"}
        misused "argument $1, \"$2\": character $((${#2} - ${#bad} + 1)), \"${bad%"${bad#?}"}\", is no hex digit"
    fi
    [ ${#digits} -eq "$4" ] || misused "argument $1, \"$2\": $5 has $4 hex digits, and this has ${#digits}"
}

# record_bytes FILE HEX: what FILE holds ('-' is standard input), to $work/input: record bytes, or, where HEX is yes
# or the name ends in .hex, hex text, or, where HEX is text, the bytes of a text. Reads no further than it must. Sets named,
# what messages call it.
record_bytes() {
    named=$1
    if [ "$1" = - ]; then
        named='standard input'
    else
        [ -e "$1" ] || fail "$1: there is no such file"
        [ ! -d "$1" ] || fail "$1: that is a folder"
        [ -r "$1" ] || fail "$1: that file cannot be read"
    fi
    case $2:$1 in
    text:*) take=plain_bytes ;;
    yes:* | *.[Hh][Ee][Xx]) take=hex_bytes ;;
    *) take=plain_bytes ;;
    esac
    if [ "$1" = - ]; then $take; else $take <"$1"; fi
}

# unread: no byte more comes from the file, or none can be kept
unread() {
    unkept
    fail "$named, which cannot be read"
}

plain_bytes() { { dd bs=1 count="$most" >"$work/input"; } 2>/dev/null || unread; }

# hex text, as scripts/hex.awk has it
hex_bytes() {
    rm -f "$work/unread"
    { { od -A n -v -t x1 || true >"$work/unread"; } | awk -v most="$most" -f "$top/scripts/hex.awk" >"$work/escapes"; } 2>/dev/null || {
        unkept
        fail "$named, $(tail -n 1 "$work/escapes")"
    }
    while IFS= read -r escapes; do
        # shellcheck disable=SC2059
        printf "$escapes"
    done <"$work/escapes" 2>/dev/null >"$work/input"
    bytes=$(wc -c <"$work/input")
    [ $((bytes * 4 + $(wc -l <"$work/escapes"))) -eq "$(wc -c <"$work/escapes")" ] || unread
    [ ! -f "$work/unread" ] || [ "$bytes" -eq "$most" ] || unread
}

# installed: this is a folder that ./install made, with programs and no sources
installed() { [ -d "$top/programs" ] && [ ! -f "$top/crates.txt" ]; }

# stands NAME: the program NAME is there and up to date; sets program
stands() {
    if installed; then
        program=$top/programs/$1
        [ -x "$program" ]
        return
    fi
    program=$(program_of "$1")
    command -v rt >/dev/null 2>&1 && current "$program"
}

# ready NAME: proves and builds the program NAME, where its crates changed; sets program, which ran then starts
ready() {
    if installed; then
        stands "$1" || fail "$program is missing: install it again"
        # shellcheck disable=SC2317,SC2329
        start() { case $(uname -m) in x86_64 | amd64) "$@" ;; *) qemu-x86_64 "$@" ;; esac; }
    else
        toolchain
        stands "$1" || build_program "$1" || exit 1
    fi
}

# ran FILE LAST ARGUMENT..: runs the program that is ready on $work/input, its output to FILE, whose last line begins with
# the pattern LAST
ran() {
    to=$1 last=$2 status=0
    shift 2
    { start "$program" "$@" <"$work/input" >"$to"; } 2>/dev/null || status=$?
    case $status:$(tail -n 1 "$to" 2>/dev/null | tr -d '\000'):$(tail -c 1 "$to" 2>/dev/null) in
    0:$last*:) return 0 ;;
    esac
    unkept
    case $status in
    0) fail "what ${program##*/} wrote does not end as it must" ;;
    126 | 127) fail "${program##*/} cannot be started here: it is a program for x86-64 Linux with the GNU C library" ;;
    *) fail "${program##*/} ended with $status" ;;
    esac
}

# written FILE: writes FILE to standard output, whole
written() {
    cat "$1" 2>/dev/null && return
    status=$?
    [ "$status" -lt 128 ] || exit "$status"
    fail "standard output cannot be written, so what stands there is not whole"
}
