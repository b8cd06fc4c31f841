# A formula as people write it, with decimals. TEXT is the formula, WORDS the words of a to h, eight hex digits each, parted
# by blanks, both from the environment. Prints nothing, or a line: the refusal, 30, 31 or 32 in this order, and its place and
# reason. The library judges for itself; this only says where.
# With show=numbers it prints the place and the text of each decimal, a line each; with show=text the formula with the words
# of NUMBERS, parted by blanks, in place of the decimals, as the library takes it.

function here() { return substr(text, at, 1) }
function shown(c) { return c == "" ? "the end" : c ~ /^[!-~]$/ ? "\"" c "\"" : "a byte that is no text" }
function wrong(number, place, reason) { if (!(number in told)) told[number] = "character " place ", " reason }
function wants(what) { wrong(30, at, here() == " " ? "a blank: a formula has none" : shown(here()) ": " what); bad = 1 }
function improper(word) { return word !~ /^00000000$/ && word !~ /^..[89A-Fa-f]/ }

# each reads on from `at` and gives how many words of the stack its part needs; `depth` is how deep it stands
function sum(depth,    need, right, sign) {
    need = product(depth)
    while (!bad && here() ~ /^[-+]$/) {
        sign = at++
        right = product(depth)
        need = joined(need, right, sign)
    }
    return need
}
function product(depth,    need, right, sign) {
    need = factor(depth)
    while (!bad && here() ~ /^[*\/]$/) {
        sign = at++
        right = factor(depth)
        need = joined(need, right, sign)
    }
    return need
}
function joined(left, right, sign,    need) {
    need = left > right + 1 ? left : right + 1
    if (need > 4) wrong(32, sign, "\"" substr(text, sign, 1) "\": this operation needs " need " words of the stack, which has four; write its longer side first")
    return need
}
function factor(depth,    open, need, word) {
    if (bad) return 0
    if (here() ~ /^[a-h]$/) {
        word = words[index("abcdefgh", here())]
        if (improper(word)) wrong(31, at, "\"" here() "\": its word " word " is not proper")
        at++
        return 1
    }
    if (here() == "#") {
        for (open = at++; at <= open + 8; at++) if (here() !~ /^[0-9A-F]$/) { wants("one of 0-9A-F is wanted here"); return 0 }
        word = substr(text, open + 1, 8)
        if (improper(word)) wrong(31, open, "\"#" word "\" is not proper")
        return 1
    }
    if (here() ~ /^[0-9.]$/) return decimal()
    if (here() != "-" && here() != "(") { wants("a letter a to h, a decimal, # or - or ( is wanted here"); return 0 }
    if (depth == 16) { wrong(30, at, shown(here()) ": brackets and minus signs are over 16 deep"); bad = 1; return 0 }
    open = at++
    if (substr(text, open, 1) == "-") return factor(depth + 1)
    need = sum(depth + 1)
    if (!bad && here() != ")") wants("+ - * / or the ) of character " open " is wanted here")
    at++
    return need
}
# digits, a point, digits
function decimal(    open) {
    open = at
    if (!digits()) { wants("a digit is wanted before the point"); return 0 }
    if (here() != ".") { wants("a point is wanted here, as in " substr(text, open, at - open) ".0"); return 0 }
    at++
    if (!digits()) { wants("a digit is wanted behind the point"); return 0 }
    from[++count] = open
    size[count] = at - open
    return 1
}
function digits(    open) {
    for (open = at; here() ~ /^[0-9]$/; ) at++
    return at - open
}
# the formula with the words in place of the decimals
function plain(    out, k, next_at) {
    next_at = 1
    for (k = 1; k <= count; k++) {
        out = out substr(text, next_at, from[k] - next_at) "#" (k in numbers ? numbers[k] : "00000000")
        next_at = from[k] + size[k]
    }
    return out substr(text, next_at)
}

BEGIN {
    text = ENVIRON["TEXT"]
    split(ENVIRON["WORDS"], words, " ")
    if (show == "text") split(ENVIRON["NUMBERS"], numbers, " ")
    at = 1
    if (length(text) > 256 && !index(text, ".")) wrong(30, 257, "and more: a formula has at most 256")
    else {
        sum(0)
        if (!bad && at <= length(text)) wants("+ - * / or the end is wanted here")
        if (!bad && length(plain()) > 256) wrong(30, length(text), "the last: with # and eight digits for each decimal there are " length(plain()) " characters, and a formula has at most 256")
    }
    if (show == "numbers") for (k = 1; k <= count; k++) print from[k], substr(text, from[k], size[k])
    else if (show == "text") print plain()
    else for (number = 30; number <= 32; number++) if (number in told) { print number, told[number]; exit }
}
