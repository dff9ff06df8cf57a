# The figures of bench/run, from its rows: function, name, table records, and a number for the empty function, the core and plain C.
# The first file tells bytes of stack, the second instructions. Set by the caller:
#   form               text or markdown
#   limit, check       how many times plain C a row may cost; with check=1 the exit status is 1 where one costs more
#   excuses            a file with the rows that may cost more
#   code, constants    two numbers each: bytes of the core and of plain C

BEGIN { FS = "\t" }

# The empty function's return address and its ret are the call's own too: eight bytes and one instruction.
FNR == NR {
    if ($1 == "sds_step") {
        core_stack = most(core_stack, $5 - $4 + 8)
        plain_stack = most(plain_stack, $6 - $4 + 8)
    }
    next
}
{ a = $5 - $4 + 1; b = $6 - $4 + 1 }
$1 == "known" {
    exact = a == 10 && b == 22
    next
}
# Lines of one name, which stand together, are one row: the sum of their calls.
{
    if (!(($1, $2, $3) in core_of)) {
        n++
        call[n] = $1; name[n] = $2; records[n] = $3
    }
    core[n] = core_of[$1, $2, $3] += a
    plain[n] = plain_of[$1, $2, $3] += b
}

END {
    if (!exact) {
        print "figures: the functions of 10 and 22 instructions were counted otherwise"
        exit 1
    }
    if (form == "markdown") {
        with_table()
        without_table()
        in_all("- ")
        exit 0
    }
    as_text()
    in_all("")
    above = over_limit()
    exit check && above
}

function most(a, b) { return a < b ? b : a }

function ratio(a, b) { return sprintf("%.2f", a / b) }

function cost(a, b) { return a " / " b ", " ratio(a, b) }

function as_text(    i) {
    printf "%-20s %-42s %7s %7s %7s %6s\n", "function", "row", "records", "core", "plain C", "ratio"
    for (i = 1; i <= n; i++)
        printf "%-20s %-42s %7s %7d %7d %6s\n", call[i], name[i], records[i], core[i], plain[i], ratio(core[i], plain[i])
    print ""
}

# one line for each name, with a cell for each size of table
function with_table(    i, last) {
    print "| core / plain C, ratio | no records | 4 | 64 | 1,024 |"
    print "|---|--:|--:|--:|--:|"
    for (i = 1; i <= n; i++) {
        if (records[i] == "-" || call[i] name[i] == last) continue
        last = call[i] name[i]
        print "| " title(i) " |" cell(i, 0) cell(i, 4) cell(i, 64) cell(i, 1024)
    }
    print ""
}

function title(i) { return "`" call[i] "` " name[i] }

function cell(i, size) {
    if (!((call[i], name[i], size) in core_of)) return " |"
    return " " cost(core_of[call[i], name[i], size], plain_of[call[i], name[i], size]) " |"
}

# two rows to a line
function without_table(    i, open) {
    print "| | core / plain C, ratio | | core / plain C, ratio |"
    print "|---|--:|---|--:|"
    for (i = 1; i <= n; i++) {
        if (records[i] != "-") continue
        printf "| %s | %s %s", title(i), cost(core[i], plain[i]), open ? "|\n" : ""
        open = !open
    }
    print open ? "| | |\n" : ""
}

function in_all(bullet,    c, k) {
    split(code, c, " ")
    split(constants, k, " ")
    printf "%scode: core %d bytes, plain C %d; constants: %d and %d bytes\n", bullet, c[1], c[2], k[1], k[2]
    printf "%sdeepest stack of sds_step, over all rows: core %d bytes, plain C %d\n", bullet, core_stack, plain_stack
    printf "%sinstructions for each table record: sds_table_check, core %s; sds_step with the lookup, core %s\n", bullet, \
        growth("sds_table_check", "mixed records"), growth("sds_step", "Read, 2 bytes")
}

# what a record costs where a table of 64 grows to 1,024
function growth(function_name, row) {
    return slope(core_of[function_name, row, 1024], core_of[function_name, row, 64]) ", plain C " \
        slope(plain_of[function_name, row, 1024], plain_of[function_name, row, 64])
}

function slope(far, near) { return sprintf("%.2f", (far - near) / 960) }

function over_limit(    i, row, count, wrong) {
    read_excused()
    for (i = 1; i <= n; i++)
        if (core[i] > limit * plain[i]) {
            row = call[i] ", " name[i] (records[i] == "-" ? "" : ", " records[i] " records")
            if (!count++) print "\nabove " limit " times plain C:"
            print "    " row ": " ratio(core[i], plain[i]) (row in excused ? " (" excused[row] ")" : "")
            if (!(row in excused)) wrong = 1
            delete excused[row]
        }
    print (count ? "" : "\n") (count + 0) " of " n " rows are above " limit " times plain C"
    for (row in excused) {
        print "bench/above excuses a row that is not above the limit: " row
        wrong = 1
    }
    return wrong
}

# rows that may be above the limit, and why
function read_excused(    line, at) {
    while ((getline line <excuses) > 0) {
        at = index(line, ": ")
        if (line !~ /^#/ && at) excused[substr(line, 1, at - 1)] = substr(line, at + 2)
    }
}
