# What became of signs, exponents and the last cut in an operation of ./steps, in words: lines that begin with '#', to be
# shown beneath the proved ones. To be read behind scripts/programs.sh and scripts/decimals.sh by a script that has set name
# (of the operation), a, b (its words in hex), rule, and what the program told in $work/steps.
# Nothing proves these words, but they must come to the proved word: where they do not, the script fails.

# told_answer: sets proved, the last proved line, and its answer and answer_status, which are the word and the status
told_answer() {
    proved=$(tail -n 1 "$work/steps")
    answer=${proved#word } answer=${answer%% *} answer_status=${proved##* }
}

# comes_to WORD: the words have come to the proved word
comes_to() { [ "$1" = "$answer" ] || fail "the words come to $1, and the proved answer is $answer"; }

# status_words: the last line of words
status_words() {
    echo "1 4 0 $answer_status" | awk -f "$top/scripts/words.awk" | sed "s/.*# /# Status $answer_status: /; s/\$/./"
}

# ---- fixed point

# signed HEX: the number that a word of $width bits stands for
signed() { echo $((0x$1 < half ? 0x$1 : 0x$1 - 2 * half)); }

# word_of NUMBER: its low $width bits in hex
word_of() { printf "%0$((width / 4))X" $(($1 & (2 * half - 1))); }

magnitude() { echo $(($1 < 0 ? -$1 : $1)); }

fixed_words() {
    case $name in S*) width=16 half=32768 ;; *) width=32 half=2147483648 ;; esac
    x=$(signed "$b") y=$(signed "$a")
    echo "# B $b is $x, A $a is $y."
    case $name:$y:$x in
    ?DIV:0:*)
        echo "# A is zero: B stays, with divide by zero."
        comes_to "$b"
        ;;
    *:-$half:* | *:*:-$half)
        echo "# -$half, the most negative word, has a magnitude of $((width + 1)) bits with its sign: the answer is that word, with overflow."
        comes_to "$(word_of $half)"
        ;;
    *) fixed_result ;;
    esac
}

fixed_result() {
    u=$(magnitude "$x") v=$(magnitude "$y") sign='' less=''
    if [ $((x < 0)) -ne $((y < 0)) ]; then sign=- less=", and the signs differ"; fi
    echo "# The steps work on the magnitudes $u and $v$less."
    case $name in
    ?DIV)
        exact=$sign$((u / v))
        echo "# Last cut: $u / $v is $((u / v)), and $((u % v)) is left and dropped: $((exact)) is $(word_of "$exact")."
        comes_to "$(word_of "$exact")"
        ;;
    ?MUL)
        exact=$((x * y))
        if [ $((exact < half && exact >= -half)) -eq 1 ]; then
            echo "# Last cut: $exact fits $width bits with its sign, as $(word_of $exact)."
        else
            echo "# Last cut: $exact does not fit $width bits with its sign: its low $width bits are kept, $(word_of $exact), with overflow."
        fi
        comes_to "$(word_of $exact)"
        ;;
    ?MUU)
        exact=$((x * y))
        upper=$(((exact - (exact & (2 * half - 1))) / (2 * half)))
        echo "# Last cut: of $exact in $((2 * width)) bits the upper $width are kept, $(word_of $upper), which is $upper."
        comes_to "$(word_of $upper)"
        ;;
    esac
}

# ---- floats

# parts LETTER HEX: sets LETTER_sign, LETTER_exponent and LETTER_mantissa
parts() {
    sign=+ exponent=$((0x$2 >> 24 & 127)) mantissa=$((0x$2 & 0xFFFFFF))
    [ $((0x$2 >> 31)) -eq 0 ] || sign=-
    [ $exponent -lt 64 ] || exponent=$((exponent - 128))
    eval "$1_sign=$sign $1_exponent=$exponent $1_mantissa=$mantissa"
}

# float_line LETTER HEX LINE: an operand, its decimal by the LINE of the proved program, and its parts
float_line() {
    parts "$1" "$2"
    echo "# $1 $2 is ${3#* }: sign $sign, exponent $exponent, mantissa $(printf %06X $mantissa)."
}

# float_words: $work/told has the lines of B, A and the answer
float_words() {
    { IFS= read -r told_b && IFS= read -r told_a && IFS= read -r told; } <"$work/told"
    float_line B "$b" "$told_b"
    float_line A "$a" "$told_a"
    case $proved in
    refused*) echo "# An operand that is not zero and has bit 23 clear is not proper, so nothing is done."; return ;;
    esac
    case $name:$b:$a in
    FDIV:*:00000000)
        echo "# A is zero: B stays, with divide by zero."
        comes_to "$b"
        ;;
    *:00000000:* | *:*:00000000)
        echo "# An operand is zero, so the answer is zero, which has no sign."
        comes_to 00000000
        ;;
    *) float_result ;;
    esac
    echo "# The word $answer is ${told#* }."
}

float_result() {
    sign=+
    [ "$B_sign" = "$A_sign" ] || sign=-
    echo "# Signs: $B_sign and $A_sign give $sign."
    case $name in
    FMUL)
        e=$((B_exponent + A_exponent)) whole=$((B_mantissa * A_mantissa)) divisor=16777216
        said="$B_exponent + $A_exponent is $e; the product of the mantissas, $(printf %012X $whole),"
        if [ $whole -lt $((1 << 47)) ]; then
            e=$((e - 1)) divisor=8388608 said="$said begins with 0, so one less: $e"
        else
            said="$said begins with 1"
        fi
        ;;
    FDIV)
        e=$((B_exponent - A_exponent)) whole=$((B_mantissa << 24)) divisor=$A_mantissa
        said="$B_exponent - $A_exponent is $e; the mantissa of B is"
        if [ "$B_mantissa" -ge "$A_mantissa" ]; then
            e=$((e + 1)) whole=$((B_mantissa << 23)) said="$said not below that of A, so one more: $e"
        else
            said="$said below that of A"
        fi
        ;;
    esac
    echo "# Exponents: $said."
    m=$((whole / divisor)) rest=$((whole % divisor))
    float_cut
    stored=$e
    if [ $e -gt 63 ]; then
        stored=$((e - 128))
        echo "# The exponent $e is over 63: $stored, which is 128 less, is stored, with overflow."
    elif [ $e -lt -64 ]; then
        stored=$((e + 128))
        echo "# The exponent $e is under -64: $stored, which is 128 more, is stored, with underflow."
    fi
    case $sign in -) top_bit=128 ;; *) top_bit=0 ;; esac
    comes_to "$(printf %02X%06X $((top_bit + (stored & 127))) $m)"
}

# float_cut: m and what is left behind it, by the rule
float_cut() {
    said="24 bits are kept, $(printf %06X $m)"
    if [ $rest -eq 0 ]; then
        echo "# Last cut: $said, and nothing is left behind them."
        return
    fi
    case $rule:$((2 * rest > divisor)):$((2 * rest == divisor)):$((m % 2)) in
    cut:*) echo "# Last cut: $said, and what is left behind them is dropped."; return ;;
    *:0:0:*) echo "# Last cut: $said; what is left is under half of their last bit, and dropped."; return ;;
    *:0:1:0) echo "# Last cut: $said; what is left is half of their last bit, which is 0 and stays."; return ;;
    *:0:1:1) said="$said; what is left is half of their last bit, which is 1, so one more:" ;;
    *) said="$said; what is left is over half of their last bit, so one more:" ;;
    esac
    m=$((m + 1))
    if [ $m -eq 16777216 ]; then
        m=8388608 e=$((e + 1))
        echo "# Last cut: $said $(printf %06X $m) and the exponent $e."
    else
        echo "# Last cut: $said $(printf %06X $m)."
    fi
}
