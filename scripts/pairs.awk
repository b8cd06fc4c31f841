# A module's text in which each load and store of a pair, { A, B }, is one of A and one of B, which lies where it does on a machine
# of 64 bits. A processor on which a pointer has 32 bits, or a number of 64 bits lies at any multiple of four, has another place
# for it in a pair of its own.
BEGIN { size["i8"] = 1; size["i16"] = 2; size["i32"] = 4; size["i64"] = size["ptr"] = 8 }

# sets first, second, behind (the place of the second), rest (what follows the type) and near (the second's alignment)
function take(line,    word) {
    match(line, /\{ (i8|i16|i32|i64|ptr), (i8|i16|i32|i64|ptr) \}/)
    pair = substr(line, RSTART, RLENGTH)
    split(pair, word, /[{}, ]+/)
    first = word[2]; second = word[3]
    behind = size[first] > size[second] ? size[first] : size[second]
    rest = substr(line, RSTART + RLENGTH)
    near = line
    sub(/^.*, align /, "", near)
    sub(/[^0-9].*/, "", near)
    align = near + 0
    near = align < behind ? align : behind
}

/^  %[^ ]+ = load \{ (i8|i16|i32|i64|ptr), (i8|i16|i32|i64|ptr) \}, ptr %[^ ,]+, align [0-9]+/ {
    to = $1
    take($0)
    split(rest, word, /[ ,]+/)
    print "  " to ".a = load " first ", ptr " word[3] ", align " align
    print "  " to ".at = getelementptr i8, ptr " word[3] ", i64 " behind
    print "  " to ".b = load " second ", ptr " to ".at, align " near
    print "  " to ".one = insertvalue " pair " poison, " first " " to ".a, 0"
    print "  " to " = insertvalue " pair " " to ".one, " second " " to ".b, 1"
    next
}
/^  store \{ (i8|i16|i32|i64|ptr), (i8|i16|i32|i64|ptr) \} %[^ ,]+, ptr %[^ ,]+, align [0-9]+/ {
    take($0)
    split(rest, word, /[ ,]+/)
    to = "%stored" ++stores
    print "  " to ".a = extractvalue " pair " " word[2] ", 0"
    print "  " to ".b = extractvalue " pair " " word[2] ", 1"
    print "  store " first " " to ".a, ptr " word[4] ", align " align
    print "  " to ".at = getelementptr i8, ptr " word[4] ", i64 " behind
    print "  store " second " " to ".b, ptr " to ".at, align " near
    next
}
{ print }
