# For firmware/test: frames for the panel on a pipe, read and read strictly by both readers, written and written strictly, and what document 02, E4, E13 and E1, and
# ISO 7816-3's table of seven cases have them answered, worked out here from their sentences and from nothing that the panel says.
#
#   awk -v calls=FILE -v answers=FILE -f firmware/iso.awk
#
# "The strict frames are then ISO's seven cases; a strict writer is added that refuses shape 6, and Lc 0 in shape 7, with R5 and is otherwise
# the writer. The ordinary reading still takes it .. E1's kind for every strict frame longer than 7 bytes with an extended Lc of 0 is surplus,
# at byte 7." And since E13: "The ordinary reading gives 6700 for shape 6, the writer R5 .. E1's kind for the old form is surplus at its Le byte."

function ask(call, answer) {
    print call > calls
    print answer > answers
}

function hex(n, digits,    out) {
    out = ""
    for (; digits > 0; digits--) {
        out = substr("0123456789abcdef", n % 16 + 1, 1) out
        n = int(n / 16)
    }
    return out
}

function repeated(text, times,    out) {
    out = ""
    for (; times > 0; times--) out = out text
    return out
}

# byte i of a body, from 1 on, as in ISO's table; a byte that is not there is never looked at
function B(body, i) {
    return 16 * (index("0123456789abcdef", substr(body, 2 * i - 1, 1)) - 1) + index("0123456789abcdef", substr(body, 2 * i, 1)) - 1
}

function extended(body) {
    return 256 * B(body, 2) + B(body, 3)
}

function le(n, most) {
    return n == 0 ? most : n
}

# what a body of ISO's seven cases says, by document 01's shape: shape, Lc, Le, where the data starts and ends; nothing of any other
function iso(body,    L, n) {
    L = length(body) / 2
    if (L == 0) return "1 0 0 4 4"
    if (L == 1) return "2 0 " le(B(body, 1), 256) " 4 4"
    if (B(body, 1) != 0) {
        n = B(body, 1)
        if (L == 1 + n) return "3 " n " 0 5 " 5 + n
        if (L == 2 + n) return "4 " n " " le(B(body, L), 256) " 5 " 5 + n
        return ""
    }
    if (L < 3) return ""
    n = extended(body)
    if (L == 3) return "8 0 " le(n, 65536) " 4 4"
    if (n != 0 && L == 3 + n) return "5 " n " 0 7 " 7 + n
    if (n != 0 && L == 5 + n) return "7 " n " " le(256 * B(body, L - 1) + B(body, L), 65536) " 7 " 7 + n
    return ""
}

# and of the form that document 01 tolerates beside them, which E13 has left
function tolerated(body) {
    if (length(body) / 2 != 5 || B(body, 1) != 0 || extended(body) != 0) return ""
    return "7 0 " le(256 * B(body, 4) + B(body, 5), 65536) " 7 7"
}

function said(body, strictly,    s) {
    s = iso(body)
    return s != "" || strictly ? s : tolerated(body)
}

# a body that ends before its Lc field or its data does
function early(body,    L) {
    L = length(body) / 2
    if (L < 2) return 0
    if (B(body, 1) != 0) return L < 1 + B(body, 1)
    return L < 3 || (L > 3 && L < 3 + extended(body))
}

# "for missing bytes the frame's length; for surplus the first byte that no field can claim": the longest front that is read ends there
function reading(body, strictly,    s, k) {
    s = said(body, strictly)
    if (s != "") return s
    if (early(body)) return "6700 missing " 4 + length(body) / 2
    for (k = length(body) / 2 - 1; said(substr(body, 1, 2 * k), strictly) == ""; k--);
    return "6700 surplus " 4 + k
}

function read(body) {
    ask("read a0a1a2a3" body, reading(body, 0))
    ask("strict a0a1a2a3" body, reading(body, 1))
    # 02, E9: the second reader is "equal to the branching reader on every frame, E1's pairs included"
    ask("table a0a1a2a3" body, reading(body, 0))
    ask("tablestrict a0a1a2a3" body, reading(body, 1))
}

# document 01's table: the bytes of the Lc field, the least and the most data, the bytes of the Le field and the most it says. Row 6 is retired
function row(shape) {
    split("1 0 0 0 0 0|2 0 0 0 1 256|3 1 1 255 0 0|4 1 1 255 1 256|5 3 1 65535 0 0||7 3 0 65535 2 65536|8 0 0 0 3 65536", rows, "|")
    split(rows[shape], column, " ")
}

# a frame's body, or R5: there is no such shape, it cannot carry so much data or this Le, or ISO has no such case
function body_of(shape, n, says, strictly,    lc, last) {
    if (shape < 1 || shape > 8 || shape == 6) return "R5"
    row(shape)
    if (n < column[3] || n > column[4] || says > column[6] || (column[5] ? says < 1 : says != 0)) return "R5"
    if (strictly && shape == 7 && n == 0) return "R5"
    lc = column[2] == 0 ? "" : column[2] == 1 ? hex(n, 2) : "00" hex(n, 4)
    last = column[5] == 0 ? "" : column[5] == 1 ? hex(says % 256, 2) : hex(says % 65536, 4)
    return lc repeated("5c", n) (column[5] == 3 ? "00" : "") last
}

function write(call, shape, n, says, strictly,    body, words) {
    words = call " a0 a1 a2 a3 " shape " " says " " (n ? repeated("5c", n) : "-")
    body = body_of(shape, n, says, strictly)
    if (body == "R5") {
        # R5 comes before R2: in a buffer of none too
        ask("room 0", "ok")
        ask(words, "R5")
        ask("room 1024", "ok")
        ask(words, "R5")
        return
    }
    ask("room " 3 + length(body) / 2, "ok")
    ask(words, "R2")
    ask("room " 4 + length(body) / 2, "ok")
    ask(words, "9000 a0a1a2a3" body)
    ask((strictly ? "strict" : "read") " a0a1a2a3" body, reading(body, strictly))
}

BEGIN {
    firsts = split("00 01 02 05 ff", first, " ")
    lengths = split("0000 0001 0002 0005 00ff 0100 ffff", long, " ")
    fills = split("00 ff 05", fill, " ")
    for (f = 1; f <= firsts; f++)
        for (l = 1; l <= lengths; l++)
            for (b = 1; b <= fills; b++) {
                whole = first[f] long[l] repeated(fill[b], 300)
                for (n = 0; n <= 14; n++) read(substr(whole, 1, 2 * n))
                for (n = 255; n <= 266; n++) read(substr(whole, 1, 2 * n))
                read(substr(whole, 1, 2 * 296))
            }
    counts = split("0 1 2 255 256", count, " ")
    lasts = split("0 1 255 256 257 65535 65536 65537", last, " ")
    for (s = 0; s <= 9; s++)
        for (c = 1; c <= counts; c++)
            for (e = 1; e <= lasts; e++) {
                write("write", s, count[c], last[e], 0)
                write("writestrict", s, count[c], last[e], 1)
            }
}
