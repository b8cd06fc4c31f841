# Is a module indifferent to the width of a pointer? Reads the module as LLVM's text, as the toolchain made it, before any
# pass. Prints a line for each finding, then a line of counts. Ends with 0 only if there is no finding. `host` names the
# functions that a program asks of its machine, which read or write bytes behind a pointer that they are lent.
#
# Every object is an alloca or what an exported function is lent behind a pointer. A walk finds for each pointer which
# places (an object and an offset, ? for any) it can hold, by following it through copies, calls and memory to a fixed
# point. The module is indifferent if:
#   - each instruction has one of the forms below; none makes a number of a pointer or a pointer of a number, compares or
#     chooses pointers, or returns one by itself, but that an exported function may ask whether what it is lent is null; steps
#     along memory are counted in bytes;
#   - there is no global but constant bytes, which nothing is stored to;
#   - a pair, { A, B }, is loaded and stored as its two parts, the second at its place on a machine of 64 bits
#     (scripts/pairs.awk), and an exported function returns none that has a pointer;
#   - no object's size rests on a pointer's, but that of `alloca ptr`, which is only stored to and loaded from as a pointer;
#   - a pointer is stored and loaded in allocas alone, at a constant offset, and no other access, set or move touches the
#     eight bytes from there on in part or as anything else, but that all eight may be set to zero, which is null: so a pointer
#     of four bytes has the place of one of eight;
#   - no object that holds a pointer is lent to the host;
#   - every pointer that is used has a place: none came from nowhere.
BEGIN {
    # the instructions that have to do with numbers alone
    count = split("br ret zext sext trunc icmp add sub mul udiv urem sdiv srem and or xor shl lshr ashr switch unreachable bitcast select", word, " ")
    for (i = 1; i <= count; i++) plain[word[i]] = 1
    # the most bytes of each type
    size["i1"] = size["i8"] = 1; size["i16"] = 2; size["i32"] = size["float"] = 4; size["i64"] = size["double"] = size["ptr"] = 8
    size["any bytes"] = 1
    count = split(host, word, " ")
    for (i = 1; i <= count; i++) of_host[word[i]] = 1
    findings = instructions = functions = 0
}

function finding(line, text) {
    if ((line, text) in told) return
    told[line, text] = 1
    findings++
    print "line " line ": " text
}

# The places of node n: places[n] of them, place[n, i] their object and at[n, i] their offset.
function add(n, object, offset) {
    if ((n, object, offset) in holds) return
    holds[n, object, offset] = 1
    places[n]++
    place[n, places[n]] = object
    at[n, places[n]] = offset
    more = 1
}

# A cell is an offset of an object at which a pointer lies: cells[object] of them, cell[object, i].
function add_cell(object, offset) {
    if ((object, offset) in is_cell) return
    is_cell[object, offset] = 1
    cells[object]++
    cell[object, cells[object]] = offset
    more = 1
}

# the pointer that a line compares with null
function word_of(line) {
    sub(/^icmp eq ptr /, "", line)
    sub(/,.*/, "", line)
    return line
}

# a constant is the same in every function; a part of a pair is named by its number
function node(value) { return value ~ /^@/ ? value : fn SUBSEP value }
function part_of(n, k) { return n SUBSEP "part" k }
function returned(f, k) { return part_of(f SUBSEP "returned", k) }

# sets first, second and behind, the parts of a pair's type and the place of the second
function parts_of(pair) {
    gsub(/[{},]/, " ", pair)
    split(pair, parts, " ")
    first = parts[1]; second = parts[2]
    behind = size[first] > size[second] ? size[first] : size[second]
}

# an access of a pair at p, whose parts are those of n
function pair_access(how, pair, p, n,    k) {
    parts_of(pair)
    for (k = 0; k < 2; k++) {
        copies++
        from[copies] = p; into[copies] = part_of(p, "at" (k ? behind : 0)); by[copies] = k ? behind : 0
        accesses++
        where[accesses] = NR; what[accesses] = how; type[accesses] = k ? second : first
        through[accesses] = into[copies]; value[accesses] = part_of(n, k)
    }
}

function in_cell(object, offset) { return "cell" SUBSEP object SUBSEP offset }

# ---- reading the module: each instruction that has to do with pointers becomes a rule

/^define / {
    functions++
    if (!match($0, /@("[^"]+"|[A-Za-z0-9_.$]+)\(/)) { finding(NR, "a function of no known form"); next }
    fn = substr($0, RSTART + 1, RLENGTH - 2)
    head = substr($0, 1, RSTART - 1)
    rest = substr($0, RSTART + RLENGTH)
    exported = head !~ / internal /
    if (head ~ / ptr / || exported && head ~ /[{ ]ptr[, ]/) finding(NR, "a function returns a pointer")
    sub(/\) .*/, "", rest)
    given = split(rest, parameter, ", ")
    defined[fn] = 1
    takes[fn] = given
    for (i = 1; i <= given; i++) {
        last = split(parameter[i], word, " ")
        named[fn, i] = fn SUBSEP word[last]
        kind[fn, i] = word[1]
        for (k = 2; k < last; k++)
            if (word[k] != "noundef" && (word[k] != "zeroext" || exported)) finding(NR, "a parameter is marked " word[k])
        if (word[1] == "ptr" && exported) {
            object = "lent " fn " " word[last]
            lent[object] = 1
            add(fn SUBSEP word[last], object, 0)
        }
    }
    next
}
/^@static\.[0-9]+ = private unnamed_addr constant \[[0-9]+ x i8\] (c".*"|zeroinitializer), align 1$/ {
    constant[$1] = 1
    add($1, "constant " $1, 0)
    next
}
/^@/ { finding(NR, "a global") }
/^module asm / { finding(NR, "assembly") }
/^}/ { fn = "" }
fn == "" || !/^  / { next }
/^  \]/ || /^    i[0-9]+ -?[0-9]+, label / { next }

{
    line = $0
    sub(/^ +/, "", line)
    sub(/, ![a-z].*/, "", line)
    to = ""
    if (line ~ /^%[^ ]+ = /) {
        to = line
        sub(/ = .*/, "", to)
        sub(/^%[^ ]+ = /, "", line)
    }
    instructions++
    op = line
    sub(/ .*/, "", op)
}

op == "alloca" {
    if (line !~ /^alloca (i1|i8|i16|i32|i64|float|double|ptr|\[[0-9]+ x i8\]), align [0-9]+$/) { finding(NR, "an alloca of another form: " line); next }
    object = "alloca " fn " " to
    if (line ~ /^alloca ptr,/) bare[object] = 1
    add(node(to), object, 0)
    next
}
op == "getelementptr" {
    if (line !~ /^getelementptr (inbounds )?(nuw )?i8, ptr %[^ ,]+, i64 [^ ,]+$/) { finding(NR, "a step that is not counted in bytes: " line); next }
    sub(/^.*i8, ptr /, "", line)
    split(line, word, ", i64 ")
    copies++
    from[copies] = node(word[1]); into[copies] = node(to)
    by[copies] = word[2] ~ /^-?[0-9]+$/ ? word[2] : "?"
    next
}
op == "load" && line ~ /^load \{ (i8|i16|i32|i64|ptr), (i8|i16|i32|i64|ptr) \}, ptr %[^ ,]+, align [0-9]+$/ {
    match(line, /\{[^}]*\}/)
    pair = substr(line, RSTART, RLENGTH)
    split(substr(line, RSTART + RLENGTH), word, /[ ,]+/)
    pair_access("load", pair, node(word[3]), node(to))
    next
}
op == "store" && line ~ /^store \{ (i8|i16|i32|i64|ptr), (i8|i16|i32|i64|ptr) \} %[^ ,]+, ptr %[^ ,]+, align [0-9]+$/ {
    match(line, /\{[^}]*\}/)
    pair = substr(line, RSTART, RLENGTH)
    split(substr(line, RSTART + RLENGTH), word, /[ ,]+/)
    pair_access("store", pair, node(word[4]), node(word[2]))
    next
}
op == "extractvalue" && line ~ /^extractvalue \{ (i8|i16|i32|i64|ptr), (i8|i16|i32|i64|ptr) \} %[^ ,]+, [01]$/ {
    sub(/^[^}]*\} /, "", line)
    split(line, word, ", ")
    copies++
    from[copies] = part_of(node(word[1]), word[2]); into[copies] = node(to); by[copies] = 0
    next
}
op == "ret" && line ~ /^ret \{ (i8|i16|i32|i64|ptr), (i8|i16|i32|i64|ptr) \} %[^ ,]+$/ {
    sub(/^.*\} /, "", line)
    for (k = 0; k < 2; k++) { copies++; from[copies] = part_of(node(line), k); into[copies] = returned(fn, k); by[copies] = 0 }
    next
}
op == "load" {
    if (line !~ /^load [a-z0-9]+, ptr %[^ ,]+, align [0-9]+$/) { finding(NR, "a load of another form: " line); next }
    gsub(/,/, "", line)
    split(line, word, " ")
    accesses++
    where[accesses] = NR; what[accesses] = "load"; type[accesses] = word[2]; through[accesses] = node(word[4]); value[accesses] = node(to)
    next
}
op == "store" {
    if (line !~ /^store [a-z0-9]+ [^ ,]+, ptr %[^ ,]+, align [0-9]+$/) { finding(NR, "a store of another form: " line); next }
    gsub(/,/, "", line)
    split(line, word, " ")
    if (word[2] == "ptr" && word[3] !~ /^%/ && !(word[3] in constant)) { finding(NR, "a pointer that is a constant: " line); next }
    accesses++
    where[accesses] = NR; what[accesses] = "store"; type[accesses] = word[2]; through[accesses] = node(word[5]); value[accesses] = node(word[3])
    next
}
op == "call" && /@llvm\./ {
    if (line ~ /^call void @llvm\.memmove\.p0\.p0\.i64\(ptr %[^ ,]+, ptr %[^ ,]+, i64 [0-9]+, i1 false\)$/) {
        gsub(/[(),]/, " ", line)
        split(line, word, " ")
        moves++
        moved[moves] = NR; target[moves] = node(word[5]); source[moves] = node(word[7]); long[moves] = word[9]
    } else if (line ~ /^call void @llvm\.memset\.p0\.i64\(ptr %[^ ,]+, i8 [^ ,]+, i64 [0-9]+, i1 false\)$/) {
        gsub(/[(),]/, " ", line)
        split(line, word, " ")
        accesses++
        where[accesses] = NR; what[accesses] = word[7] == "0" ? "clearing" : "set"
        type[accesses] = word[9] " bytes"; size[word[9] " bytes"] = word[9]; through[accesses] = node(word[5])
    } else if (line !~ /^call (void @llvm\.trap\(\)|i64 @llvm\.ctlz\.i64\(i64 [^ ,]+, i1 (true|false)\))$/)
        finding(NR, "an intrinsic of another form: " line)
    next
}
op == "call" {
    if (line !~ /^call ([a-z0-9]+|\{ (i8|i16|i32|i64|ptr), (i8|i16|i32|i64|ptr) \}) @("[^"]+"|[A-Za-z0-9_.$]+)\(.*\)$/ || line ~ /^call ptr /) { finding(NR, "a call of another form: " line); next }
    match(line, /@("[^"]+"|[A-Za-z0-9_.$]+)\(/)
    callee = substr(line, RSTART + 1, RLENGTH - 2)
    line = substr(line, RSTART + RLENGTH)
    sub(/\)$/, "", line)
    calls++
    called[calls] = NR; callees[calls] = callee; answers[calls] = $0 ~ /call \{ / ? node(to) : ""
    passed[calls] = split(line, word, ", ")
    for (i = 1; i <= passed[calls]; i++) {
        split(word[i], part, " ")
        passed_kind[calls, i] = part[1]
        passed_value[calls, i] = part[2]
        passed_node[calls, i] = node(part[2])
    }
    next
}
op == "icmp" && exported && line ~ /^icmp eq ptr %[^ ,]+, null$/ && ("lent " fn " " word_of(line)) in lent { next }
{
    if (!(op in plain)) finding(NR, "an instruction of another form: " line)
    else if (line ~ /(^|[ (])ptr([ ,]|$)/) finding(NR, "a pointer where only numbers stand: " line)
}

# ---- the walk

function walk(   i, k, j, o, f) {
    for (i = 1; i <= copies; i++)
        for (k = 1; k <= places[from[i]]; k++) {
            f = at[from[i], k]
            add(into[i], place[from[i], k], f == "?" || by[i] == "?" ? "?" : f + by[i])
        }
    for (i = 1; i <= accesses; i++)
        if (type[i] == "ptr")
            for (k = 1; k <= places[through[i]]; k++) {
                o = place[through[i], k]; f = at[through[i], k]
                add_cell(o, f)
                if (what[i] == "load") flow(in_cell(o, f), value[i]); else flow(value[i], in_cell(o, f))
            }
    for (i = 1; i <= moves; i++)
        for (k = 1; k <= places[source[i]]; k++)
            for (j = 1; j <= places[target[i]]; j++)
                move(place[source[i], k], at[source[i], k], place[target[i], j], at[target[i], j], long[i])
}

function flow(n, m,    k) {
    for (k = 1; k <= places[n]; k++) add(m, place[n, k], at[n, k])
}

# what a move of n bytes takes along: the pointers that lie wholly inside
function move(o, f, p, g, n,    k, c) {
    if (f == "?" || g == "?") return
    for (k = 1; k <= cells[o]; k++) {
        c = cell[o, k]
        if (c == "?" || c < f || f + n < c + 8) continue
        add_cell(p, c - f + g)
        flow(in_cell(o, c), in_cell(p, c - f + g))
    }
}

# call i is one of the host: it may touch any byte of what it is lent
function lends(i,    k) {
    for (k = 1; k <= passed[i]; k++) {
        if (passed_kind[i, k] != "ptr") continue
        accesses++
        where[accesses] = called[i]; what[accesses] = "lending"; type[accesses] = "any bytes"; through[accesses] = passed_node[i, k]
    }
}

# ---- what must hold at the fixed point

# n bytes at offset f of object o are touched as something that is no pointer; a clearing may take whole pointers
function touched(line, o, f, n, how,    k, c) {
    for (k = 1; k <= cells[o]; k++) {
        c = cell[o, k]
        if (f == "?") finding(line, how " at any place of an object that holds a pointer: " o)
        else if (how ~ /^a clearing / && f <= c && c + 8 <= f + n) continue
        else if (f < c + 8 && c < f + n) finding(line, how " over a pointer: " o " at " c)
    }
    if (o in bare) finding(line, how " over an `alloca ptr`: " o)
}

# of the n bytes from f of o on that a move takes to g of p: the pointers here are the pointers there
function moves_pointers(line, o, f, p, g, n,    k, c) {
    if (o in bare || p in bare) finding(line, "a move of an `alloca ptr`")
    if (p ~ /^constant /) finding(line, "a move to a constant")
    if (f == "?" || g == "?") {
        if (cells[o] || cells[p]) finding(line, "a move at any place of an object that holds a pointer")
        return
    }
    for (k = 1; k <= cells[o]; k++) {
        c = cell[o, k]
        if (f < c + 8 && c < f + n && !(c >= f && c + 8 <= f + n && (p, c - f + g) in is_cell)) finding(line, "a move of a part of a pointer: " o " at " c)
    }
    for (k = 1; k <= cells[p]; k++) {
        c = cell[p, k]
        if (g < c + 8 && c < g + n && !(c >= g && c + 8 <= g + n && (o, c - g + f) in is_cell)) finding(line, "a move of bytes over a pointer: " p " at " c)
    }
}

END {
    for (i = 1; i <= calls; i++) {
        callee = callees[i]
        if (!(callee in defined) && callee in of_host) { lends(i); continue }
        if (!(callee in defined)) { finding(called[i], "a call of a function that is not here: " callee); continue }
        if (passed[i] != takes[callee]) { finding(called[i], "a call with another number of arguments: " callee); continue }
        for (k = 1; k <= passed[i]; k++) {
            if (passed_kind[i, k] != kind[callee, k]) finding(called[i], "an argument of another type: " callee)
            if (kind[callee, k] != "ptr") continue
            if (passed_value[i, k] !~ /^%/ && !(passed_value[i, k] in constant)) finding(called[i], "a pointer that is a constant, given to " callee)
            copies++
            from[copies] = passed_node[i, k]; into[copies] = named[callee, k]; by[copies] = 0
        }
    }
    for (i = 1; i <= calls; i++)
        if (answers[i] != "") {
            if (!(callees[i] in defined)) finding(called[i], "a function that is not here hands back a pair: " callees[i])
            for (k = 0; k < 2; k++) { copies++; from[copies] = returned(callees[i], k); into[copies] = part_of(answers[i], k); by[copies] = 0 }
        }
    do { more = 0; walk(); rounds++ } while (more)

    for (i = 1; i <= accesses; i++) {
        if (!(type[i] in size)) { finding(where[i], "an access of another type: " type[i]); continue }
        if (!places[through[i]]) finding(where[i], "a pointer that came from nowhere")
        if (type[i] == "ptr" && what[i] == "load" && !places[value[i]]) finding(where[i], "a pointer is loaded where none was stored")
        for (k = 1; k <= places[through[i]]; k++) {
            object = place[through[i], k]; offset = at[through[i], k]
            if (object ~ /^constant / && what[i] ~ /^(store|set|clearing)$/) finding(where[i], "a store to a constant")
            if (what[i] == "lending") offset = "?"
            if (type[i] != "ptr") { touched(where[i], object, offset, size[type[i]], "a " what[i] " of " type[i]); continue }
            if (object in lent) finding(where[i], "a pointer in lent memory: " object)
            if (offset == "?") finding(where[i], "a pointer at any place of " object)
            else if (object in bare && offset != 0) finding(where[i], "a pointer beside an `alloca ptr`: " object)
        }
    }
    for (object in cells)
        for (i = 1; i <= cells[object]; i++)
            for (k = 1; k < i; k++) {
                apart = cell[object, i] - cell[object, k]
                if (apart < 8 && apart > -8) finding(0, "two pointers less than eight bytes apart: " object)
            }
    for (i = 1; i <= moves; i++) {
        if (!places[source[i]] || !places[target[i]]) finding(moved[i], "a pointer that came from nowhere")
        for (k = 1; k <= places[source[i]]; k++)
            for (j = 1; j <= places[target[i]]; j++)
                moves_pointers(moved[i], place[source[i], k], at[source[i], k], place[target[i], j], at[target[i], j], long[i])
    }
    if (!functions || !instructions) finding(0, "there is no module")
    print functions + 0 " functions, " instructions + 0 " instructions, " findings + 0 " findings"
    exit findings > 0
}
