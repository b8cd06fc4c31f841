# What ./list and ./sheets share, over scripts/programs.sh: the words of a call, the records, the listing.

# own_option WORD: a command that has options of its own defines this anew
own_option() { return 1; }

# options WORD..: the words of a call: sets file, hex, words, strict, example and settings, the program's own options
options() {
    file='' hex=no words=no strict=no example=no older='' nearest='' ended=no
    for word in "$@"; do
        case $ended:$word in
        no:--help | no:-h) usage; exit 0 ;;
        no:--version) version; exit 0 ;;
        no:--hex) hex=yes ;;
        no:--words) words=yes ;;
        no:--strict) strict=yes ;;
        no:--example) example=yes ;;
        no:--am9511) older=--am9511 ;;
        no:--nearest) nearest=--nearest ;;
        no:--) ended=yes ;;
        no:-?*) own_option "$word" || misused "there is no option $word (a file of that name is ./$word)" ;;
        *:) misused "a file has a name" ;;
        *) [ -z "$file" ] || misused "one file at a time"; file=$word ;;
        esac
    done
    settings="$older $nearest"
    if [ $example = yes ]; then
        [ -z "$file" ] || misused "either --example or a file"
    elif [ -z "$file" ]; then
        [ ! -t 0 ] || misused "a file is needed; - is standard input, --example the built-in example"
        file=-
    fi
}

# records EXAMPLE: reads the records that were asked for to $work/input, and says where there are none
records() {
    [ $example = no ] || file=$top/examples/$1
    record_bytes "$file" "$hex"
    [ -s "$work/input" ] || say "$named holds no bytes"
}

# worded FILE: the listing in FILE with words behind its lines
worded() { awk -f "$top/scripts/words.awk" "$1"; }

# in_words FILE: what is shown of the listing in FILE where words are asked for; a command that shows more defines it anew
in_words() { worded "$1"; }

# listed LAST: runs the program on the records, writes the listing, whose last line begins with LAST, and ends the script
listed() {
    # shellcheck disable=SC2086
    ran "$work/listing" "$1" $settings
    if [ $words = yes ]; then
        in_words "$work/listing" >"$work/words" || { unkept; fail "the words could not be added"; }
        written "$work/words"
    else
        written "$work/listing"
    fi
    mistaken
    [ $strict = no ] || exit "$(awk '$1 == "end" && $2 != 0 { stopped = 3 } $1 ~ /^[0-9]+$/ && $3 != 0 { refused = 4 } END { print stopped ? stopped : refused + 0 }' "$work/listing")"
}

# mistaken: text that was taken as record bytes ends at once with 7; says what it looks like
mistaken() {
    [ "$take:$(head -n 1 "$work/listing")" = 'plain_bytes:end 7 0' ] || return 0
    case $(od -A n -t x1 -N 3 "$work/input") in
    ' ff fe'* | ' fe ff'*) say "that looks like text in UTF-16: save it as UTF-8, and $called --hex lists it"; return ;;
    ' 3a'*) say "that looks like Intel HEX: make record bytes of it first (objcopy -I ihex -O binary)"; return ;;
    ' ef bb bf'*) ;;
    ' '[89a-f]*) return ;;
    esac
    [ "$(dd if="$work/input" bs=64 count=1 2>/dev/null | tr -d '[:print:]\t\n\r\200-\377' | wc -c)" -ne 0 ] ||
        say "if that was hex text, $called --hex lists it"
}
