# How ./page puts the page together. To be read by a script that has set `top`, the repository's folder, and `work`, a folder
# for temporary files, and that has read tests/kit.sh and scripts/archives.sh. Defines page_modules, page_file.

# the programs that the page runs, and the calls that it makes for the state behind each record
page_programs='buslist sheetlist formulas steps word records'
page_calls='pundaliket_run sheets_run'

# page_modules: each program and library, compiled and linked for WebAssembly, to $work/NAME.wasm
page_modules() {
    for name in $page_programs; do
        wasm_module "$name" 1048576 main || return 1
    done
    for call in $page_calls; do
        wasm_module "${call%_run}" 65536 "$call" || return 1
    done
}

# wasm_module NAME STACK EXPORT: NAME, of a program what its main reaches, fit to be compiled, for size. What it asks of its
# machine is asked of the page; too little stack ends the call, since nothing lies below it.
wasm_module() {
    take_module "$1" || return 1
    compile_module "$1" wasm32 small "$work/$1.o" &&
        "$lld" -flavor wasm --no-entry --strip-all --stack-first -z stack-size="$2" --allow-undefined --export=__heap_base \
            --export="$3" "$work/$1.o" -o "$work/$1.wasm" && return
    say "$1 cannot be compiled for wasm32"
    return 1
}

# coded FILE..: their bytes in base64, in double quotes
coded() { printf '"%s"' "$(cat "$@" | base64 | tr -d '\n')"; }

# or_nothing FILE: it, or an empty file where there is none
or_nothing() { if [ -f "$1" ]; then echo "$1"; else echo /dev/null; fi; }

# page_commit: twelve digits, as many in every clone, and whether files changed since
page_commit() {
    if [ -e "$top/.git" ] && commit=$(git -C "$top" rev-parse HEAD 2>/dev/null); then
        printf %.12s "$commit"
        git -C "$top" diff --quiet HEAD -- 2>/dev/null || printf ' with changes'
    else
        printf unknown
    fi
}

# page_data: what the scripts are given: version, modules and their sums, names, reasons, and what is run on opening
page_data() {
    printf "'use strict';\nconst VERSION = \"%s\", COMMIT = \"%s\";\n" "$(cat "$top/VERSION")" "$(page_commit)"
    echo '// the modules, and the SHA-256 of each'
    echo 'const MODULES = {'
    for wasm in "$work"/*.wasm; do
        name=${wasm##*/}
        printf '%s: { sum: "%s", bytes: %s },\n' "${name%.wasm}" "$(sha256sum <"$wasm" | cut -d ' ' -f 1)" "$(coded "$wasm")"
    done
    echo '};'
    echo '// names of commands by code, and why a record, a file or a formula is refused'
    echo 'const CODES = {'
    sed -n '/CODE_SERVICE/d; s/^ *PUNDALIKET_CODE_\([A-Z]*\) = \(0x[0-9A-F]*\).*/\2: "\1",/p' "$top/include/pundaliket.h"
    echo '};'
    echo 'const WHY = {'
    sed -n 's/^ *why\[\([0-9]*\)\] = \(".*"\)$/\1: \2,/p' "$top/scripts/words.awk"
    sed -n 's/^ *\(3[0-9]\)) said=\(".*"\) ;;$/\1: \2,/p; s/^ *\*) said=\(".*"\) ;;$/33: \1,/p' "$top/formula"
    echo '};'
    echo '// why a line of records in words is wrong'
    echo 'const FAULTS = {'
    awk '/^why\(\)/ { inside = 1 } /^}/ { inside = 0 }
        inside && /\) echo ".*" ;;$/ {
            split($0, parts, /"/)
            sub(/\).*/, "")
            for (i = 1; i <= NF; i++) if ($i != "|") print $i ": \"" parts[2] "\","
        }' "$top/records"
    echo '};'
    echo '// the examples with their listings, and the trial run of each program: its input, its arguments, its output'
    echo 'const EXAMPLES = ['
    for text in "$top"/examples/*.txt; do
        name=${text##*/}
        printf '{ name: "%s", hex: %s, text: %s },\n' "${name%.txt}.hex" "$(coded "${text%.txt}.hex")" "$(coded "$text")"
    done
    echo '];'
    echo 'const TRIALS = ['
    for name in $page_programs; do
        trial=$top/crates/$name
        printf '{ name: "%s", input: %s, words: %s, text: %s },\n' "$name" "$(coded "$(or_nothing "$trial/stdin")")" \
            "$(coded "$(or_nothing "$trial/args")")" "$(coded "$trial/stdout")"
    done
    echo '];'
}

# hash_of FILE: its SHA-256 as a policy names it. (An element's text begins behind its tag, with the end of that line.)
hash_of() {
    sum=$( (echo; cat "$1") | sha256sum | cut -d ' ' -f 1)
    printf "'sha256-%s'" "$(
        while [ -n "$sum" ]; do
            # shellcheck disable=SC2059
            printf "\\$(printf %03o "0x${sum%"${sum#??}"}")"
            sum=${sum#??}
        done | base64
    )"
}

# page_file FILE: the page. A line of web/page.html that is @name@ stands for the file of that name, and @POLICY@ in a line for
# what the page may do: run its own scripts and modules, and look as its own style says.
page_file() {
    web=$top/web
    page_data >"$work/data" &&
        cat "$web/sha256.js" "$web/programs.js" "$web/texts.js" "$web/formula.js" "$web/runs.js" >"$work/machine" &&
        cat "$web/screen.js" "$web/rows.js" "$web/tabs.js" "$web/start.js" >"$work/screen" &&
        cat "$web/page.css" >"$work/style" || return 1
    ! grep -i -n -e '</s' -e '<!--' "$work/data" "$work/machine" "$work/screen" "$work/style" >&2 || return 1
    policy="default-src 'none'; base-uri 'none'; form-action 'none'; style-src $(hash_of "$work/style"); script-src"
    for part in data machine screen; do policy="$policy $(hash_of "$work/$part")"; done
    policy="$policy 'wasm-unsafe-eval'"
    awk -v folder="$work" -v policy="$policy" '
        /^@[a-z]+@$/ { part = folder "/" substr($0, 2, length($0) - 2); while ((getline line <part) > 0) print line; next }
        { sub(/@POLICY@/, policy); print }' "$web/page.html" >"$1"
}
