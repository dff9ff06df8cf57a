# The deepest stack under one function, from the frame sizes that the compiler wrote (.su) and the calls that stand in the linked code
# (llvm-objdump -d --no-show-raw-insn), in this order:
#
#     awk -v entry=sds_step -f stack.awk a.su b.su - < disassembly
#
# Prints the bytes and the calls that lead there. Stops with an error at what would make the number wrong: recursion, a call or jump to a
# computed address, a frame of unknown or varying size. A jump to another function counts as a call. Not counted are the arguments that
# the caller of the entry puts on its own stack.

function stop(why) {
    print "stack.awk: " why > "/dev/stderr"
    failed = 1
    exit 1
}

function depth(name,    callee, parts, i, n, most, way) {
    if (name in deepest)
        return deepest[name]
    if (name in open)
        stop("recursion through " name)
    if (!(name in frame))
        stop("no frame size of " name)
    open[name] = 1
    most = 0
    n = split(calls[name], parts, " ")
    for (i = 1; i <= n; i++) {
        callee = parts[i]
        if (depth(callee) > most) {
            most = deepest[callee]
            way = ", " path[callee]
        }
    }
    delete open[name]
    path[name] = name " " frame[name] way
    return deepest[name] = frame[name] + most
}

# the place, among all functions, of the last that begins at or before an address
function around(address,    i) {
    for (i = functions; i > 1 && begins[i] > address; i--)
        ;
    return i
}

# FILE:NAME bytes static, and for C also FILE:LINE:NAME; a name of the module holds colons itself
FILENAME ~ /\.su$/ {
    name = $1
    sub(/^[^:]*:([0-9]+:)?/, "", name)
    if ($3 != "static")
        stop("the frame of " name " is " $3)
    if (!(name in frame) || $2 > frame[name])
        frame[name] = $2
    next
}

/^[0-9a-f]+ <.*>:$/ {
    name = substr($2, 2, length($2) - 3)
    if (name ~ /^\$[adt]/)
        next
    current = name
    known[current] = 1
    begins[++functions] = "x" $1    # eight digits in hex, with a letter in front so that awk compares them as text
    names[functions] = name
    next
}

$1 !~ /^[0-9a-f]+:$/ { next }

# Returns are bx lr, pop {..., pc} and ldr pc, [sp], #4.
$2 ~ /^blx/ && $3 !~ /^0x/ || $2 ~ /^bx/ && $3 != "lr" || $2 ~ /^tb[bh]$/ || ($3 == "pc," && $0 !~ /pc, \[sp\], #4/) {
    stop("a computed address in " current ": " $0)
}

# A name of the module may hold < and > itself. A Cortex-M0 also takes bl for a far jump inside a function: only a bl to its beginning is a call of itself. A place behind constants that stand
# inside a function is told from the mark ($t) there; that it is inside the same function shows when all functions are known.
$2 ~ /^(b|cb)/ && match($0, /<.*>/) {
    target = substr($0, RSTART + 1, RLENGTH - 2)
    inside = sub(/\+0x[0-9a-f]+$/, "", target)
    if (target ~ /^\$/) {
        match($0, /0x[0-9a-f]+ </)
        address = substr($0, RSTART + 2, RLENGTH - 4)
        marked[++marks] = "x" substr("00000000" address, length(address) + 1)
        from[marks] = current
        next
    }
    if (target == current && (inside || $2 != "bl"))
        next
    if (index(" " calls[current] " ", " " target " ") == 0)
        calls[current] = calls[current] " " target
}

END {
    if (failed)
        exit 1
    if (!(entry in known))
        stop("no code of " entry)
    for (i = 1; i <= marks; i++) {
        place = around(marked[i])
        if (names[place] != from[i] || begins[place] == marked[i])
            stop("a jump from " from[i] " to " marked[i] ", in " names[place])
    }
    bytes = depth(entry)
    print bytes ": " path[entry]
}
