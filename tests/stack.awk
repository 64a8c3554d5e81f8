# The most stack that each function of the library can take, in bytes with its return address, off `objdump -dr --no-show-raw-insn`: what a function takes itself,
# and the most that one it calls or jumps to can. One section a function, no recursion, no call by pointer (a jump by a table stays in its function); libc's
# functions count as 0.

function unknown(why) { print "tests/stack.awk: " f ": " why; failed = 1; exit 1 }

function from_hex(digits,    i, n) {
    for (i = 1; i <= length(digits); i++) n = 16 * n + index("0123456789abcdef", substr(digits, i, 1)) - 1
    return n
}

function depth(f,    i, d, most) {
    if (!(f in own)) return 0
    if (f in deepest) return deepest[f]
    if (f in open) unknown("calls itself")
    open[f] = 1
    for (i = 1; i <= calls[f]; i++) {
        d = depth(callee[f, i])
        if (d > most) most = d
    }
    delete open[f]
    return deepest[f] = own[f] + most
}

/^Disassembly of section / {
    f = $0
    sub(/^Disassembly of section (\.text\.)?/, "", f)
    sub(/:$/, "", f)
    own[f] = 8
    next
}
/R_X86_64_/ {
    if (goes) {
        g = $3
        sub(/[-+]0x[0-9a-f]+$/, "", g)
        sub(/^\.text\./, "", g)
        callee[f, ++calls[f]] = g
    }
    next
}
$1 ~ /^[0-9a-f]+:$/ {
    goes = $2 == "call" || $2 == "jmp"
    if ($2 == "call" && $3 ~ /^\*/) unknown("calls by pointer")
    if ($2 == "push") own[f] += 8
    if ($2 == "sub" && $3 ~ /^\$0x[0-9a-f]+,%rsp$/) own[f] += from_hex(substr($3, 4, length($3) - 8))
    else if ($2 != "add" && $2 != "lea" && $2 != "cmp" && $3 ~ /,%rsp$/) unknown($0)
}

END {
    if (failed) exit 1
    for (f in own) if (f ~ /^weqhaso_/) print f, depth(f)
}
