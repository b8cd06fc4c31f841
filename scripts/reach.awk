# Of a program's module, as text, what the program's own main reaches: -v name=NAME, the text twice as the files. What C's start
# does around main is left out: it asks x86-64 what it can do, gives a failure its text and the process its status. In its place
# stands a `main` for C without a result, which lends what the program's main answers in, as the program's own start does.
# Fails where there is no such start.
BEGIN { start = "\"" name "::main+run\""; root = "\"" name "::main\"" }

# names LINE OWNER: the owner uses each function and constant that the line names
function names(line, owner) {
    while (match(line, /@("[^"]+"|[A-Za-z0-9_.$]+)/)) {
        uses[owner, ++used[owner]] = substr(line, RSTART + 1, RLENGTH - 1)
        line = substr(line, RSTART + RLENGTH)
    }
}

function reach(f,    i) {
    if (f in reached) return
    reached[f]
    for (i = 1; i <= used[f]; i++) reach(uses[f, i])
}

# ---- first: who names whom; what the start does before main has ended

FNR == NR && /^define / {
    match($0, /@("[^"]+"|[A-Za-z0-9_.$]+)\(/)
    fn = substr($0, RSTART + 1, RLENGTH - 2)
    next
}
FNR == NR && /^}/ { fn = ""; next }
FNR == NR && fn != "" {
    names($0, fn)
    if (fn == start && !begun && (/ = alloca / || /^  call void @llvm\.memset/)) body = body $0 "\n"
    if (fn == start && index($0, "  call void @" root "(") == 1) { body = body $0 "\n"; begun = 1 }
    next
}
FNR == NR { next }

# ---- then: what is reached, and the new main

FNR == 1 {
    if (!begun) { failed = 1; exit }
    names(body, "what stands in its place")
    delete reached
    reach("what stands in its place")
}
/^define / {
    match($0, /@("[^"]+"|[A-Za-z0-9_.$]+)\(/)
    fn = substr($0, RSTART + 1, RLENGTH - 2)
    show = (fn in reached) && fn != "main"
    if (fn == "main") print "define void @main() #0 {\nstart:\n" body "  ret void\n}"
}
/^@/ { if (substr($1, 2) in reached) print; next }
/^declare / {
    match($0, /@[A-Za-z0-9_.$]+\(/)
    if (substr($0, RSTART + 1, RLENGTH - 2) in reached) print
    next
}
/^define /, /^}/ { if (show) print; next }
{ print }
END { exit failed }
