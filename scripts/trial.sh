#!/bin/sh
# trial.sh NAME: proves and builds the program NAME, as rt does, and tries it on the files beside its sources: given the words
# of args, a line each, and the bytes of stdin it must write what stdout has, and end with the number in status. Without such
# a file there is nothing, and 0. What rt says goes to standard output; a line that begins with 'trial: ' says what is
# otherwise. Ends with 0 only if the program is proved, and does so.
set -u
top=$(dirname -- "$(dirname -- "$(readlink -f -- "$0")")")
. "$top/scripts/build.sh"
toolchain
unset RT_BACKEND
name=$1 wrote=$top/out/made/$1.trial
shift
cd "$top/crates/$name" && mkdir -p "$top/out/made" || exit 2
[ ! -f args ] || while IFS= read -r word || [ -n "$word" ]; do set -- "$@" "$word"; done <args
given=/dev/null must=/dev/null wanted=0
[ ! -f stdin ] || given=stdin
[ ! -f stdout ] || must=stdout
[ ! -f status ] || wanted=$(cat status)
{
    status=0
    rt run -- "$@" 2>&1 <"$given" >"$wrote" || status=$?
    echo "$status" >"$wrote.status"
} | tee "$wrote.said"
read -r status <"$wrote.status" || exit 2
rm "$wrote.status"
if ! grep -q '^rt: running out/' "$wrote.said"; then
    [ "$status" -ne 0 ] || status=2
    exit "$status"
fi
note_libraries "$name"
if [ "$status" -ne "$wanted" ]; then
    echo "trial: $name ended with $status, and not with $wanted"
elif ! cmp -s "$wrote" "$must"; then
    echo "trial: what $name wrote, out/made/$name.trial, is not what its file stdout has"
else
    exit 0
fi
exit 1
