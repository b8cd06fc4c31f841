# A run for people: of each record its words, what it read or why it was refused, and the state after it. Reads four files:
# the words of the records and the states of the run, both of the program `records`, between them the listing with words, and
# what the program `word` tells of each word of a stack. These are proved; how they are put together is not.

BEGIN {
    split("00 NOP 01 SQRT 02 SIN 03 COS 04 TAN 05 ASIN 06 ACOS 07 ATAN 08 LOG 09 LN 0A EXP 0B PWR 10 FADD 11 FSUB 12 FMUL 13 FDIV " \
        "15 CHSF 17 PTOF 18 POPF 19 XCHF 1A PUPI 1C FLTD 1D FLTS 1E FIXD 1F FIXS 2C DADD 2D DSUB 2E DMUL 2F DDIV 34 CHSD 36 DMUU " \
        "37 PTOD 38 POPD 39 XCHD 6C SADD 6D SSUB 6E SMUL 6F SDIV 74 CHSS 76 SMUU 77 PTOS 78 POPS 79 XCHS", list, " ")
    for (i = 1; i in list; i += 2) name[list[i]] = list[i + 1]
}

function hex(text,    n, i) { for (i = 1; i <= length(text); i++) n = 16 * n + index("0123456789ABCDEF", substr(text, i, 1)) - 1; return n }
function signed(text,    n, all) { n = hex(text); all = 16 ^ length(text); return n < all / 2 ? n : n - all }

# words of a status or of the errors remembered
function letters(text,    n, said) {
    n = hex(text)
    if (n % 128 >= 64) said = said " S"
    if (n % 64 >= 32) said = said " Z"
    if (n % 32 >= 16) said = said " divide-by-zero"
    if (n % 16 >= 8) said = said " negative-root"
    if (n % 8 >= 4) said = said " underflow"
    if (n % 4 >= 2) said = said " overflow"
    if (n % 2) said = said " C"
    return said == "" ? " -" : said
}

# a line that goes on below where it has over 100 columns
function folded(text, indent,    room, cut) {
    for (room = 100; length(text) > room; room = 100 - length(indent)) {
        for (cut = room; cut > 1 && substr(text, cut, 1) != " "; ) cut--
        print substr(text, 1, cut - 1)
        text = indent substr(text, cut + 1)
    }
    print text
}

# what stands in the state of record `number` : its parts, and the words A to D
function state(number,    s, i, word) {
    split(after[number], s, " ")
    print "  status " s[19] letters(s[19]) ", service line " (s[20] == "01" ? "high" : "low") (s[18] == "01" ? ", half a word pending" : "") \
        (s[21] == "00" ? "" : ", remembered" letters(s[21]) " first by " (s[22] in name ? name[s[22]] : s[22]))
    for (i = 0; i < 4; i++) {
        word = s[2 + 4 * i] s[3 + 4 * i] s[4 + 4 * i] s[5 + 4 * i]
        printf "  %s %s %-32s 32-bit %-11d 16-bit %d %d\n", substr("ABCD", i + 1, 1), word, decimal[word], signed(word), \
            signed(substr(word, 1, 4)), signed(substr(word, 5))
    }
}

FNR == 1 { file++ }
file == 1 { words[FNR] = $0; next }
file == 2 { lines = FNR; i = index($0, "  # "); line[FNR] = i ? substr($0, 1, i - 1) : $0; note[FNR] = i ? substr($0, i + 4) : ""; next }
file == 3 { after[$1] = $0; next }
{ decimal[$1] = $0 ~ / improper$/ ? "improper" : substr($0, 10) }
END {
    for (k = 1; k < lines; k++) {
        $0 = line[k]
        said = k " " words[k]
        if ($3 != 0) said = said ": refused " $3 substr(note[k], 8)
        else if (NF > 3) {
            said = said ": reads"
            for (i = 4; i <= NF; i++) said = said " " $i
            if (note[k] != "") said = said ", " note[k]
        }
        folded(said, "      ")
        state(k)
    }
    print line[lines] "  # " note[lines]
}
