# Decimals and float words, through the proved program `word`. To be read behind scripts/programs.sh.
# Defines tell_words, no_word, shaped.

# tell_words RULE FORM: what the program tells of each line of $work/texts, a line each, to $work/told. It reads 65,536
# bytes at a time, and no more than 64 characters of a text.
tell_words() {
    ready word
    texts=$(wc -l <"$work/texts") from=1
    { true >"$work/told"; } 2>/dev/null || unkept
    while [ "$from" -le "$texts" ]; do
        sed -n "$from,$((from + 899))p" "$work/texts" | cut -c 1-65 >"$work/input"
        ran "$work/lines" end "$1" "$2"
        sed '$d' "$work/lines" >>"$work/told"
        from=$((from + 900))
    done
    [ "$(wc -l <"$work/told")" -eq "$texts" ] || { unkept; fail "what word wrote is not whole"; }
}

# no_word NAMED LINE FROM TEXT: why TEXT, which begins at character FROM of an argument and is called NAMED, has no word, by
# the LINE that the program told of it
no_word() {
    case $2 in
    'refused 11') echo "$1: 2^63 or more, for which there is no word (refusal 11)"; return ;;
    'refused 12') echo "$1: not zero and under 2^-65, for which there is no word (refusal 12)"; return ;;
    esac
    at=${2#wrong } at=$((${at%% *} + $3 - 1))
    case $2 in
    *\ digit) echo "$1, character $at: a digit is wanted" ;;
    *\ point) echo "$1, character $at: a point is wanted, as in $4.0" ;;
    *\ digits) echo "$1, character $at: more digits than are taken" ;;
    *\ places) echo "$1, character $at: more than 27 places behind the point" ;;
    *\ end) echo "$1, character $at: nothing may stand behind the number" ;;
    esac
}

# shaped PLACE ARGUMENT FROM: ARGUMENT is a decimal from character FROM on: a minus sign or none, digits, a point, digits
shaped() {
    rest=$2 at=1
    while [ "$at" -lt "$3" ]; do rest=${rest#?} at=$((at + 1)); done
    case $rest in -*) rest=${rest#?} at=$((at + 1)) ;; esac
    for part in whole places; do
        digits=${rest%%[!0-9]*}
        rest=${rest#"$digits"} at=$((at + ${#digits}))
        [ -n "$digits" ] || misused "argument $1, \"$2\": character $at: a digit is wanted"
        [ "$part" = whole ] || break
        case $rest in
        .*) rest=${rest#?} at=$((at + 1)) ;;
        *) misused "argument $1, \"$2\": character $at: a point is wanted, as in $digits.0" ;;
        esac
    done
    [ -z "$rest" ] || misused "argument $1, \"$2\": character $at: nothing may stand behind the number"
}
