# How a program or a library is proved and built, and when anew, and how a program is started here.
# To be read by a script that has set `top`, the repository's folder. Defines say, room, toolchain, start, crates_of,
# program_of, contents, current, note, rattle_on, libraries_stand, note_libraries, build, build_program, make_library. Needs a
# POSIX shell with the usual tools of Linux; from `toolchain` on rt. What rt makes of a crate lies in the crate's out/; what
# the scripts make and note lies in out/ of the repository: out/made has the notes and what rt said.

# say TEXT: a line on standard error, if there is one
say() { echo "${0##*/}: $1" >&2 || :; }

# room FOLDER [NAME]: FOLDER takes 64 kB more; if not, `reason` says why not, of NAME where one is given
room() {
    reason=''
    if tried=$(LC_ALL=C dd if=/dev/zero of="$1/room.$$" bs=1024 count=64 2>&1); then
        rm -f "$1/room.$$"
        return 0
    fi
    rm -f "$1/room.$$" 2>/dev/null || :
    case $tried in
    *'No space left'* | *'uota exceeded'*) reason="the disk that holds ${2:-$1} is full" ;;
    *) reason="${2:-$1} cannot be written" ;;
    esac
    return 1
}

# toolchain: which it is, and where its parts are: sets identity (what rt version prints, without the fifth of a second that it
# takes), kit, tools, parts (the C library's folder), clang, lld
toolchain() {
    [ -z "${identity:-}" ] || return 0
    command -v rt >/dev/null 2>&1 || { say "rt, the command of the Rattle toolchain, is not on the PATH"; exit 1; }
    kit=$(dirname "$(rt doc)")
    tools=$kit/toolchain/bin
    parts=$kit/toolchain/lib
    clang=$tools/clang
    lld=$tools/ld.lld
    identity=$(cat "$kit/KIT-ID") || identity=$(rt version)
}

# start PROGRAM ARGUMENT..: by the kit's loader
start() { "$parts/ld-linux-x86-64.so.2" --library-path "$parts" "$@"; }

# crates_of [NAME..]: these crates and those of ours that they stand on, all crates if none is named, a line each as in
# crates.txt, the lower ones first
crates_of() {
    WANTED="$*" awk '
        function visit(n,    a, k, m) {
            if (n in seen || !(n in stands)) return
            seen[n]
            m = split(stands[n], a, " ")
            for (k = 1; k <= m; k++) visit(a[k])
            print n ":" stands[n]
        }
        { sub(/#.*/, ""); i = index($0, ":") }
        i { n = substr($0, 1, i - 1); sub(/^[ \t]+/, "", n); sub(/[ \t].*/, "", n); stands[n] = substr($0, i + 1); name[++count] = n }
        END {
            m = split(ENVIRON["WANTED"], wanted, " ")
            for (k = 1; k <= m; k++) visit(wanted[k])
            if (!m) for (k = 1; k <= count; k++) visit(name[k])
        }' "$top/crates.txt"
}

# program_of NAME: the file of the program NAME
program_of() { echo "$top/crates/$1/out/$1"; }

# crate_of FILE: the crate that a program, an archive or a module is made of, by its name; nothing where that is none. An
# archive of the library NAME is made of the crate NAME_c.
crate_of() {
    base=${1##*/}
    base=${base%.*} base=${base#lib}
    for each in "${base}_c" "$base"; do
        [ ! -d "$top/crates/$each" ] || { echo "$each"; return; }
    done
}

# contents [NAME..]: one number for all that these crates are proved and built from: the toolchain and the files of each
# crate that they stand on; of all crates if none is named
contents() {
    toolchain
    resting=$(crates_of "$@")
    (
        cd "$top" || exit
        # shellcheck disable=SC2046
        {
            echo "$identity"
            echo "$resting"
            find $(echo "$resting" | sed 's|:.*||; s|^|crates/|') -type f ! -path '*/must-fail/*' ! -path '*/out/*' -exec sha256sum {} + 2>/dev/null | LC_ALL=C sort
        } | sha256sum
    )
}

# current FILE: it stands as build left it, and its crates hold what they held when that began
current() {
    [ -f "$1" ] && [ "$(cat "$top/out/made/${1##*/}" 2>/dev/null)" = "$(contents "$(crate_of "$1")") $(sha256sum <"$1")" ]
}

# note FILE: rt made it of the crates as they stand
note() {
    mkdir -p "$top/out/made" && [ -f "$1" ] && echo "$(contents "$(crate_of "$1")") $(sha256sum <"$1")" >"$top/out/made/${1##*/}"
}

# Only one call proves in a repository at a time. The lock is on its folder and goes with the processes that hold it.
lock() {
    exec 9<"$top"
    if flock -n 9 2>/dev/null; then return 0; elif [ $? -ne 1 ]; then return 0; fi
    say "another call is proving in this folder, and this one waits until it is done"
    flock 9 &
    waiting=$!
    wait "$waiting" || :
    waiting=''
}
unlock() { exec 9<&-; }

# below PROCESS: it, and all that it started
below() {
    cat /proc/[0-9]*/stat 2>/dev/null | awk -v root="$1" '
        { process = $1; sub(/^.*\) /, ""); parent[process] = $2 }
        END {
            below[root]
            do { more = 0; for (p in parent) if (!(p in below) && parent[p] in below) { below[p]; more = 1 } } while (more)
            for (p in below) print p
        }'
}

# stopped NUMBER: ends the script at the signal of this number, and the provers that it started
stopped() {
    trap '' HUP INT TERM
    [ -z "${waiting:-}" ] || kill "$waiting" 2>/dev/null || :
    if [ -n "${proving:-}" ]; then
        # shellcheck disable=SC2046
        kill -s TERM -- "-$proving" 2>/dev/null || kill -s TERM $(below "$proving") 2>/dev/null || :
        kill "$ticking" "$telling" 2>/dev/null || :
        wait "$proving" 2>/dev/null || :
        rm -rf "$pipes"
        say "stopped; what is proved so far is kept, and the next call goes on from there"
    fi
    exit $((128 + $1))
}

# lasted SECONDS: as people say it
lasted() { if [ "$1" -lt 60 ]; then echo "$1 s"; else echo "$(($1 / 60)) min $(($1 % 60)) s"; fi; }

# progress LOG: notes what rt says in LOG, and says how far it is: the crate's place among those of $built_on, which is rt's
# order too. The crate that is at work is in $pipes/now.
progress() {
    trap '' PIPE
    all=$(echo "$built_on" | wc -l)
    while IFS= read -r said; do
        { printf '%s\n' "$said" >>"$1"; } 2>/dev/null || :
        case $said in
        'rt: chose --jobs '*' for '*) { echo "${said##* }" >"$pipes/now"; } 2>/dev/null || : ;;
        'logic=proved '*)
            { read -r proved <"$pipes/now" && : >"$pipes/now"; } 2>/dev/null || continue
            number=$(echo "$built_on" | grep -n -x -e "$proved" | cut -d: -f1)
            say "$number of $((all)), $proved, $(lasted $(($(date +%s) - began)))"
            ;;
        esac
    done
}

# at_work: every half minute, which crate is being proved
at_work() {
    trap '' PIPE
    ticks=0
    while sleep 1 >/dev/null 2>&1 9<&-; do
        ticks=$(((ticks + 1) % ${PUNDALIKET_TICKS:-30}))
        [ "$ticks" -eq 0 ] || continue
        now=''
        { read -r now <"$pipes/now"; } 2>/dev/null || :
        say "at work on ${now:-$built_name}, $(lasted $(($(date +%s) - began)))"
    done
}

# why_not FILE LOG STATUS: says why FILE was not built
why_not() {
    shown=$(TOP=$top/ awk '
        /: error(\[[a-z-]*\])?: / || /: no proof: / || /^trial: / {
            while (i = index($0, ENVIRON["TOP"])) $0 = substr($0, 1, i - 1) substr($0, i + length(ENVIRON["TOP"]))
            print substr($0, 1, 300)
            if (++count == 5) exit
        }' "$2")
    [ -z "$shown" ] || printf '%s\n' "$shown" >&2
    if ! room "$top/out/made" "$top/out" || ! room "${TMPDIR:-/tmp}"; then
        say "$1 is not built: $reason"
    elif grep -q ': error\[[a-z-]*\]: ' "$2"; then
        say "$1 is not built: a crate is not written as Rattle asks, as shown above; nothing is said of its proofs"
    elif grep -q '^trial: ' "$2"; then
        say "$1 is proved, and what it wrote in its trial run is not what it must write"
    elif [ "$3" -eq 1 ]; then
        say "$1 is not proved, so it is not built; out/made/$1.log has all that was said"
    elif [ "$3" -eq 3 ]; then
        say "$1 is not built: the prover could not tell; out/made/$1.log has all that was said"
    elif [ "$3" -gt 128 ]; then
        say "$1 is not built: rt was stopped by signal $(($3 - 128)); what is proved so far is kept"
    elif [ "$3" -eq 0 ]; then
        say "$1 is not built: rt ended well, and there is no such file"
    else
        tail -n 3 "$2" | cut -c 1-300 >&2
        say "$1 is not built: the toolchain failed with $3; out/made/$1.log has all that was said"
    fi
}

# proves COMMAND..: runs COMMAND in the repository's folder and says how far it is; sets built_status
proves() {
    built_status=2
    pipes=$(mktemp -d) && mkfifo "$pipes/said" && true >"$pipes/now" && true >"$made.log" || return 0
    began=$(date +%s)
    progress "$made.log" <"$pipes/said" &
    telling=$!
    at_work &
    ticking=$!
    # in a session of its own, so that one signal stops all provers; a function of the script cannot have one
    case $(command -v "$1"):$(command -v setsid) in
    /*:/*) (cd "$top" && exec setsid "$@") >"$pipes/said" 2>&1 </dev/null & ;;
    *) (cd "$top" && "$@") >"$pipes/said" 2>&1 </dev/null & ;;
    esac
    proving=$! built_status=0
    wait "$proving" || built_status=$?
    proving=''
    kill "$ticking" 2>/dev/null || :
    wait "$telling" || :
    rm -rf "$pipes"
}

# build FILE COMMAND..: makes FILE by COMMAND, a program or a function, unless it is current. Each crate is named on standard
# error when it is proved; out/made/FILE.log has all that was said. What the crates hold is noted before the work, so that
# a file edited while it goes on is proved and built the next time. Where HUP, INT or TERM comes, the provers are stopped.
build() {
    built=$1 built_name=${1##*/}
    shift
    ! current "$built" || return 0
    made=$top/out/made/$built_name
    mkdir -p "$top/out/made" 2>/dev/null || :
    if ! room "$top/out/made" "$top/out"; then
        say "$built_name is not built, and $reason: build it in a copy that can be written"
        return 1
    fi
    proving='' waiting=''
    trap 'stopped 1' HUP
    trap 'stopped 2' INT
    trap 'stopped 15' TERM
    lock
    if current "$built"; then
        unlock
        return 0
    fi
    pinned=$(cat "$top/TOOLCHAIN" 2>/dev/null) || pinned=$identity
    [ "$pinned" = "$identity" ] || say "this toolchain is '$identity'; the proofs were made with '$pinned' and may fail with another"
    built_crate=$(crate_of "$built")
    built_on=$(crates_of "$built_crate" | cut -d: -f1)
    say "$built_name is built first: $(($(echo "$built_on" | wc -l))) crates, proved where they changed, which may take some minutes"
    before=$(contents "$built_crate")
    rm -f "$made"
    proves "$@"
    if [ "$built_status" -ne 0 ] || [ ! -f "$built" ]; then
        unlock
        why_not "$built_name" "$made.log" "$built_status"
        return 1
    fi
    echo "$before $(sha256sum <"$built")" >"$made"
    unlock
}

# rattle_on CRATE VERB WORD..: rattle's VERB on the crate, where its folders src, specs and proofs lie here, over the
# libraries that rt built of the crates below. Its first line is what rt says of a crate that it begins.
rattle_on() {
    of=$1 verb=$2 jobs=${RATTLE_JOBS:-2}
    shift 2
    [ ! -f src/main.rt ] || set -- src/main.rt "$@"
    [ ! -f src/lib.rt ] || set -- src/lib.rt "$@"
    ! grep -q "^$of staticlib\( .*\)\{0,1\}:" "$top/crates.txt" || set -- --crate-type staticlib "$@"
    for each in $(crates_of "$of" | sed '$d' | cut -d: -f1); do set -- -L "dependency=$top/crates/$each/out/rlib" "$@"; done
    for each in std $(crates_of "$of" | sed -n '$s/.*://p'); do
        if [ -d "$top/crates/$each" ]; then from=$top/crates/$each/out/rlib; else from=$kit/rlibs; fi
        set -- --extern "$each=$from/$each.rlib" "$@"
    done
    echo "rt: chose --jobs $jobs for $of"
    "$kit/bin/rattle" "$verb" --crate-name "$of" "$@" -L "dependency=$kit/rlibs" --antt-project "$kit/rattle/logic/antt-project.json" \
        --logic-built "$kit/logic_built" --jobs "$jobs" --links "$of="
}

# libraries_sum CRATE: one number for the libraries that were built of the crates below it, each of which holds the sum of its
# files; fails where one is missing
libraries_sum() {
    for each in $(crates_of "$1" | sed '$d' | cut -d: -f1); do
        cat "$top/crates/$each/out/rlib/$each.rlib/format" 2>/dev/null || { echo missing; break; }
    done | sha256sum
}

# note_libraries CRATE: rt has built those below it of the crates as they stand
note_libraries() { mkdir -p "$top/out/made" && echo "$(contents "$1") $(libraries_sum "$1")" >"$top/out/made/$1.below"; }

# libraries_stand CRATE: those below it are as rt built them, of the crates as they stand
libraries_stand() {
    [ "$(cat "$top/out/made/$1.below" 2>/dev/null)" = "$(contents "$1") $(libraries_sum "$1")" ]
}

# build_program NAME: proves and builds the program, unless it is current, and tries it on the files beside its sources; sets
# program
build_program() {
    program=$(program_of "$1")
    build "$program" sh "$top/scripts/trial.sh" "$1"
}

# make_library [NAME]: proves the library, pundaliket if none is named, and writes its archive, unless that is current; sets library
make_library() {
    library=$top/out/lib${1:-pundaliket}.a
    build "$library" sh "$top/scripts/library.sh" "${1:-pundaliket}"
}
