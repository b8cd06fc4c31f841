# Hex text, as `od -A n -v -t x1` shows it, to the escapes of printf, 256 bytes to a line; no more than `most` bytes.
# A byte is two digits of either case, 0x in front of a group of them or not. Blanks, tabs, commas and the ends of lines
# part bytes; '#' starts a comment that ends with its line; a line ends with LF, CR or both; a byte order mark at the
# start is passed over. Where the text is none of that, the last line is the reason, and the exit status 1.

function refuse(text) { print "line " line ": " text; bad = 1; exit 1 }

# a byte, or a group of bytes, ends here
function parted() {
    if (half != "") refuse("\"" half_shown "\" is half a byte")
    if (bare) refuse("\"0x\" has no digits behind it")
    group = 0
    prefixed = 0
}

function digit(c) {
    bare = 0
    group++
    if (half == "") {
        half = value[c]
        half_shown = shown[c]
        return
    }
    out = out sprintf("\\%03o", 16 * half + value[c])
    half = ""
    if (++count % 256 == 0) { print out; out = "" }
    if (count == most) exit
}

function other(c) {
    if (c == "23") { parted(); comment = 1 }
    else if (c == "20" || c == "09" || c == "2c") parted()
    else if ((c == "78" || c == "58") && half_shown == "0" && half != "" && group == 1 && !prefixed) { half = ""; group = 0; bare = prefixed = 1 }
    else if (c == "3a" && begins) refuse("this is Intel HEX, which has addresses and sums; make record bytes of it first (objcopy -I ihex -O binary)")
    else if (c == "53" && begins) refuse("these are Motorola S-records, which have addresses and sums; make record bytes of them first (objcopy -I srec -O binary)")
    else if (c in shown) refuse("\"" shown[c] "\" is no hex digit")
    else refuse("the byte " toupper(c) " (hex) is no text")
}

BEGIN {
    line = begins = 1
    for (i = 33; i < 127; i++) shown[sprintf("%02x", i)] = sprintf("%c", i)
    for (i = 0; i < 10; i++) value["3" i] = i
    for (i = 1; i < 7; i++) { value["4" i] = 9 + i; value["6" i] = 9 + i }
}

comment && !/ 0[ad]/ { last = ""; next }

{
    i = 1
    if (NR == 1 && $1 $2 $3 == "efbbbf") i = 4
    if (NR == 1 && ($1 $2 == "fffe" || $1 $2 == "feff")) refuse("this is UTF-16; save the text as UTF-8")
    for (; i <= NF; i++) {
        c = $i
        if (c == "0a" || c == "0d") {
            if (!comment) parted()
            if (c == "0d" || last != "0d") line++
            comment = 0
            begins = 1
        } else if (!comment) {
            if (c in value) digit(c)
            else other(c)
            begins = 0
        }
        last = c
    }
}

END {
    if (!bad) parted()
    if (!bad && out != "") print out
    exit bad
}
