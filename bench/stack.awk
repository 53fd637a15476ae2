# The deepest stack of each exported function, in bytes, from `objdump -dr --no-show-raw-insn` of the archive: its return
# address, its frame, what it keeps below the stack pointer (System V's red zone), and the deepest of what it calls in the archive.
# memcpy and memset come on top where it calls them.
# Within a function the depth is followed from line to line; after a `ret` it is again what it was before the epilogue.

/^[0-9a-f]+ <.*>:$/ {
    name = $0
    sub(/^[0-9a-f]+ </, "", name)
    sub(/>:$/, "", name)
    depth = 0
    leaving = 0
    next
}

$2 == "push" { grow(8) }
$2 == "sub" && $3 ~ /,%rsp$/ { grow(amount($3)) }
$2 == "pop" { shrink(8) }
$2 == "add" && $3 ~ /,%rsp$/ { shrink(amount($3)) }
$2 ~ /^ret/ && leaving { depth = before; leaving = 0 }
$2 == "call" { leaving = 0 }

match($0, /-0x[0-9a-f]+\(%rsp/) {
    below = depth + hex(substr($0, RSTART + 3, RLENGTH - 8))
    if (below > frame[name])
        frame[name] = below
}

# Anything else that moves the stack pointer is beyond this reading.
/,%rsp$/ && $2 != "sub" && $2 != "add" { unread[name] = 1 }
$2 == "call" && $3 ~ /^\*/ { unread[name] = 1 }

# The relocation of a call, or of a jump that ends a function, names the function.
/R_X86_64_PLT32/ {
    to = $3
    sub(/-0x4$/, "", to)
    sub(/^\.text\./, "", to)
    calls[name, ++count[name]] = to
    at[name, count[name]] = depth
}

function amount(operands,    n) {
    n = operands
    sub(/^\$0x/, "", n)
    sub(/,.*/, "", n)
    return hex(n)
}

function hex(digits,    n, i) {
    # Of a negative number, `add $0xffffffffffffff80,%rsp`, the low half says all.
    if (length(digits) == 16)
        return hex(substr(digits, 9)) - 2 ^ 32
    n = 0
    for (i = 1; i <= length(digits); i++)
        n = n * 16 + index("0123456789abcdef", substr(digits, i, 1)) - 1
    return n
}

function grow(by) {
    leaving = 0
    depth += by
    if (depth > frame[name])
        frame[name] = depth
}

function shrink(by) {
    if (by < 0) {
        grow(-by)
        return
    }
    if (!leaving)
        before = depth
    leaving = 1
    depth -= by
}

function deepest(f,    i, most, below) {
    most = frame[f]
    for (i = 1; i <= count[f]; i++) {
        if (calls[f, i] ~ /^mem(cpy|set)$/)
            continue
        below = at[f, i] + deepest(calls[f, i])
        if (below > most)
            most = below
    }
    return 8 + most
}

function libc(f,    i) {
    for (i = 1; i <= count[f]; i++)
        if (calls[f, i] ~ /^mem(cpy|set)$/ || libc(calls[f, i]))
            return 1
    return 0
}

END {
    split(exports, wanted, " ")
    for (i = 1; i in wanted; i++) {
        f = wanted[i]
        printf "%s %d%s%s\n", f, deepest(f), libc(f) ? " and memcpy's or memset's" : "", unread[f] ? " (not all of it read)" : ""
    }
}
