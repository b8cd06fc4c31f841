# The sheets of a listing for people. Reads three files: what the program `word` tells of each word in a slot, what it tells
# of the sum, and the listing with words. Prints the listing with decimals behind the sheets and the figures, two blanks and
# '#' between, or with csv=yes the sheets alone, as RFC 4180 has it. Decimals are proved; which serials are repeated or have
# a word in slot 0 that is not proper is counted here, and compared with the proved figures.

FNR == 1 { file++ }
file == 1 { decimal[$1] = substr($0, 10); next }
file == 2 { sum = $0; next }
{ line[++lines] = $0 }
$1 == "sheet" { sheet[++sheets] = $2; slot[sheets] = $3; times[$2]++ }
$1 == "repeated" || $1 == "improper" { figure[$1] = $2 }

function improper(k) { return decimal[slot[k]] ~ / improper$/ }

# the serials of a figure, each once, in the order of the sheets
function serials(which,    k, seen, said, count) {
    for (k = 1; k <= sheets; k++) {
        if (which == "repeated" ? times[sheet[k]] < 2 : !improper(k)) continue
        if (which == "improper" || !(sheet[k] in seen)) count++
        if (!(sheet[k] in seen)) said = said " " sheet[k]
        seen[sheet[k]]
    }
    if (count + 0 != figure[which]) { print "sheets: " count + 0 " " which " serials are counted, and the proved figure is " figure[which] > "/dev/stderr"; failed = 1 }
    return said
}

function row(text,    part, i, out) {
    split(text, part, " ")
    out = part[2]
    for (i = 3; i <= 6; i++) { number = decimal[part[i]]; sub(/ .*/, "", number); out = out "," number "," part[i] }
    return out
}

END {
    repeated = serials("repeated")
    wrong = serials("improper")
    if (failed) exit 1
    if (csv == "yes") {
        printf "serial,slot 0,word 0,slot 1,word 1,slot 2,word 2,slot 3,word 3,repeated,improper\r\n"
        k = 0
        for (i = 1; i <= lines; i++) if (line[i] ~ /^sheet /) {
            k++
            printf "%s,%s,%s\r\n", row(line[i]), (times[sheet[k]] > 1 ? "yes" : "no"), (improper(k) ? "yes" : "no")
        }
        exit
    }
    for (i = 1; i <= lines; i++) {
        $0 = line[i]
        said = ""
        if ($1 == "sheet") said = decimal[$3] ", " decimal[$4] ", " decimal[$5] ", " decimal[$6] (times[$2] > 1 ? "; repeated" : "")
        else if ($1 == "repeated") said = substr(repeated, 2)
        else if ($1 == "improper") said = substr(wrong, 2)
        else if ($1 == "sum") said = sum
        print $0 (said == "" ? "" : "  # " said)
    }
}
