# What the tests of the commands share. To be read by a script that has set `top`, the repository's folder. Sets work, a
# folder that goes when the script ends; counts calls, and those that differ from what must be; defines called_as, said,
# shows, refuses, verdict. A test ends with 0 only if the last line is 'N calls, 0 differ'.
work=$(mktemp -d)
trap 'rm -rf "$work"' EXIT
trap 'exit 1' HUP INT TERM
calls=0 differ=0 status=0

# said NAME GOOD: counts one call, and shows what it did where that is not what it must do
said() {
    calls=$((calls + 1))
    [ "$2" != yes ] || return 0
    differ=$((differ + 1))
    echo "differs: $1, status $status"
    for each in out err; do
        echo "$each:"
        head -n 5 "$work/$each" | cut -c 1-200 | LC_ALL=C tr -d '\000-\011\013-\037'
    done
}

# ran COMMAND..: runs it, its output to $work/out and $work/err; sets status
ran() {
    status=0
    "$@" >"$work/out" 2>"$work/err" || status=$?
}

# gives NAME FILE COMMAND..: it ends with 0, writes what stands in FILE, and nothing on standard error
gives() {
    name=$1 expected=$2 good=no
    shift 2
    ran "$@"
    [ "$status" -ne 0 ] || ! cmp -s "$work/out" "$expected" || [ -s "$work/err" ] || good=yes
    said "$name" $good
}

# notes NAME FILE WORDS COMMAND..: it ends with 0, writes what stands in FILE, and says one line, which has WORDS
notes() {
    name=$1 expected=$2 words=$3 good=no
    shift 3
    ran "$@"
    if [ "$status" -eq 0 ] && cmp -s "$work/out" "$expected" && [ "$(wc -l <"$work/err")" -eq 1 ]; then
        case $(cat "$work/err") in *"$words"*) good=yes ;; esac
    fi
    said "$name" $good
}

# ends NAME STATUS FILE COMMAND..: it ends with STATUS and writes what stands in FILE
ends() {
    name=$1 wanted=$2 expected=$3 good=no
    shift 3
    ran "$@"
    [ "$status" -ne "$wanted" ] || ! cmp -s "$work/out" "$expected" || good=yes
    said "$name" $good
}

# refuses NAME STATUS WORDS COMMAND..: it ends with STATUS, writes nothing, and says one line, which begins with the
# command's name and has WORDS, and where it was called wrongly a second one, how to call it
refuses() {
    name=$1 wanted=$2 words=$3 good=no
    shift 3
    ran "$@"
    if [ "$status" -eq "$wanted" ] && [ ! -s "$work/out" ] && [ "$(wc -l <"$work/err")" -eq "$wanted" ]; then
        case $(cat "$work/err") in "${1##*/}: "*"$words"*) good=yes ;; esac
        [ "$wanted" -eq 1 ] || grep -q '^usage: .* --help says more$' "$work/err" || good=no
    fi
    said "$name" $good
}

# helps NAME COMMAND..: it ends with 0 and writes how to call it to standard output alone
helps() {
    name=$1 good=no
    shift
    ran "$@"
    [ "$status" -ne 0 ] || [ -s "$work/err" ] || ! grep -q '^usage: ' "$work/out" || ! grep -q '^Exit status: ' "$work/out" || good=yes
    said "$name" $good
}

verdict() {
    echo "$calls calls, $differ differ"
    [ "$differ" -eq 0 ]
}
