# A listing with words behind its lines, two blanks and '#' between: what a status or the error memory says, why a record
# was refused, how the run ended. Nothing proves these words; without them the line is the program's.

BEGIN {
    why[1] = "unknown command code"
    why[2] = "a derived function, which is not carried"
    why[3] = "a half word is pending"
    why[4] = "a float operand is not proper"
    why[5] = "there is no such kind of record"
    why[6] = "the file ends inside a record"
    why[7] = "a length, a payload or a pop count that its kind does not allow"
    why[8] = "no room for the reply"
    why[9] = "the input is over 12,288 bytes"
    why[20] = "a sheet is open already"
    why[21] = "no sheet is open"
    why[22] = "there is no such slot"
    why[23] = "a half word is pending"
    why[24] = "a slot is not kept"
    why[25] = "the list is full"
}

function digit(c) { return index("0123456789ABCDEF", c) - 1 }

# what the byte says whose digits are h and l
function status(h, l,    said) {
    if (h >= 8) said = said ", busy"
    if (h % 8 >= 4) said = said ", sign"
    if (h % 4 >= 2) said = said ", zero"
    if (h % 2) said = said ", divide by zero"
    if (l >= 8) said = said ", root of a negative number"
    if (l % 8 >= 4) said = said ", underflow"
    if (l % 4 >= 2) said = said ", overflow"
    if (l % 2) said = said ", carry"
    return said == "" ? "no bit set" : substr(said, 3)
}

$1 !~ /^[0-9]+$/ && $1 != "end" { print; next }
$1 == "end" && $2 == 0 { print $0 "  # the whole file"; next }
$1 == "end" { print $0 "  # stopped: " why[$2]; next }
$3 != 0 { print $0 "  # refused: " why[$3]; next }
$2 == 7 && $4 == "00" { print $0 "  # no error"; next }
$2 == 7 { print $0 "  # " status(digit(substr($4, 1, 1)), digit(substr($4, 2, 1))) "; the first by command " $5; next }
$2 == 4 { print $0 "  # " status(digit(substr($4, 1, 1)), digit(substr($4, 2, 1))); next }
{ print }
