# For firmware/test: calls of the panel on a pipe through the wrapper, and what the header has them answered: the room for a response before
# the touch, a session and a body for each side, and the order's one life. Worked out here, and from nothing that the panel says.
#
#   awk -v calls=FILE -v answers=FILE -f firmware/wrapper.awk
#
# "How many bytes a response to this frame can take, where no body to it is longer than `longest`: in shapes 1 to 4 the smaller of its limit
# and `longest`, and two; in shapes 5, 7 and 8 `longest` and two; of bytes in no shape two."

function ask(call, answer) {
    print call > calls
    print answer > answers
}

function hex(n, digits,    out) {
    out = ""
    for (; digits > 0; digits--) {
        out = substr("0123456789abcdef", n % 16 + 1, 1) out
        n = int(n / 16)
    }
    return out
}

function repeated(text, times,    out) {
    out = ""
    for (; times > 0; times--) out = out text
    return out
}

# header and data in a shape; Le 256 is written 00, 65536 0000
function frame(header, content, shape, le,    n) {
    n = length(content) / 2
    if (shape == 1) return header
    if (shape == 2) return header hex(le % 256, 2)
    if (shape == 3) return header hex(n, 2) content
    if (shape == 4) return header hex(n, 2) content hex(le % 256, 2)
    if (shape == 5) return header "00" hex(n, 4) content
    if (shape == 7) return header "00" hex(n, 4) content hex(le % 65536, 4)
    return header "00" hex(le % 65536, 4)
}

# what the shape takes at a time; 0: all
function limit_of(shape, le) {
    return shape > 4 ? 0 : shape % 2 ? 256 : le
}

function least(a, b) {
    return a < b ? a : b
}

function decide(call, t, sent, answer) {
    ask(call " " t " 1 " sent lent, answer)
}

# a live touch of side 0's, at the moment t and after it
function touched() {
    ask("resume 5000 - " t " " t " 0", "ok")
}

# A frame whose body can have `longest` bytes: with one byte less than its room R2, and nothing has changed; with its room it is answered so.
# R6, R8 and R1 come before R2, whatever the room.
function roomed(sent, longest, limit, answer, tried,    space) {
    space = 2 + (limit ? least(limit, longest) : longest)
    touched()
    ask("space " longest " " sent, "9000 " space)
    ask("outroom " space - 1, "ok")
    decide("try", t + 1, sent, "R2")
    decide("decide", t + 1, sent, "R2")
    decide("decide", t - 1, sent, "R1")
    ask("side 2", "ok")
    decide("decide", t - 1, sent, "R8")
    ask("side 0", "ok")
    ask("record", "5000 - " t " " t " 0")
    ask("resume 0 - " t " " t " 0", "ok")
    decide("decide", t - 1, sent, "R6")
    touched()
    ask("outroom " space, "ok")
    decide("try", t + 1, sent, tried)
    decide("decide", t + 1, sent, answer)
    ask("outroom 131072", "ok")
    rooms++
}

# an order in its room, finished with the longest signature, and responded to in that room: never a refusal
function carried(sent, longest, limit, answer, tried, certificate, body,    space, n) {
    roomed(sent, longest, limit, answer, tried)
    space = 2 + (limit ? least(limit, longest) : longest)
    n = limit ? least(limit, longest) : longest
    ask("outroom " space, "ok")
    ask("finish " certificate " 1 " signature, "9000 " body)
    ask("finish " certificate " 1 " signature, "R7")
    if (length(body) != 2 * longest) exit 1
    ask("cut " longest, "9000 " substr(body, 1, 2 * n) (longest - n == 0 ? "9000" : "61" (longest - n < 256 ? hex(longest - n, 2) : "00")))
    ask("remainder", n " " longest - n)
    ask("outroom 131072", "ok")
    ask("remain 0 0", "ok")
}

function rooms_asked(    shape, k, le, of, limit) {
    # every shape that carries these, at an Le of one byte, of a few and of all
    for (shape = 1; shape <= 8; shape++) {
        if (shape == 6) continue
        split(shape > 4 ? "1 65536" : "1 100 256", of, " ")
        for (k in of) {
            le = of[k]
            limit = limit_of(shape, le)
            if (shape == 1 || shape == 2 || shape == 8) {
                roomed(frame("00030000", "", shape, le), 6, limit, "9000 5532465f5632", "9000")
                roomed(frame("00040000", "", shape, le), 0, limit, "6d00", "6d00")
                roomed(frame("01030000", "", shape, le), 0, limit, "6e00", "6e00")
                roomed(frame("00c00000", "", shape, le), 0, limit, "6985", "6985")
                roomed(frame("00c00001", "", shape, le), 0, limit, "6a86", "6a86")
                continue
            }
            carried(frame("00010000", challenge application, shape, le), 139 + 64 + 300, limit, "order 1 0 " enrolling " 300", "order 0",
                certificate, enrolment)
            carried(frame("00020300", login, shape, le), 77, limit, "order 2 1 " application "0100000007" challenge " 0", "order 1", "-",
                "0100000007" signature)
            carried(frame("00020800", login, shape, le), 77, limit, ordered, "order 1", "-", "0000000007" signature)
            roomed(frame("00020700", login, shape, le), 0, limit, "6985", "6985")
            roomed(frame("00020500", login, shape, le), 0, limit, "6a80", "6a80")
            roomed(frame("00010000", challenge, shape, le), 0, limit, "6700 lc 4", "6700 lc 4")
        }
    }
    # in no shape, and a Version with data: no body can come of either
    roomed("000300", 0, 0, "6a80", "6a80")
    roomed("00030000000001aa0000", 0, 0, "6700 lc 4", "6700 lc 4")
}

# of bytes in no shape two, whatever is asked; and a length that no number holds
function spaces(    most) {
    most = "18446744073709551615"
    ask("space 100 000300", "9000 2")
    ask("space " most " 000300000001", "9000 2")
    ask("space " most " -", "9000 2")
    ask("space " most " 00030000", "9000 258")
    ask("space 0 00030000", "9000 2")
    ask("space " most " 00030000000000", "R2")
    ask("space 18446744073709551614 00030000000000", "R2")
    ask("space 18446744073709551613 00030000000000", "9000 " most)
    ask("space 18446744073709551616 00030000", "? a word that it does not take")
    ask("space 1", "? another number of words")
    ask("wrapper 2", "? a word that it does not take")
    ask("wrapper", "? another number of words")
}

# what is left to fetch is what GET RESPONSE's room is asked by: of 6 bytes 4 are left
function fetching(    shape, le) {
    for (shape = 1; shape <= 8; shape++) {
        if (shape != 1 && shape != 2 && shape != 8) continue
        for (le = 1; le <= 5; le += 2) {
            limit = limit_of(shape, le)
            n = limit ? least(limit, 4) : 4
            ask("ramp 00", "ok")
            ask("remain 2 4", "ok")
            roomed(frame("00c00000", "", shape, le), 4, limit, "part " substr("02030405", 1, 2 * n) (n < 4 ? "61" hex(4 - n, 2) : "9000"), "part")
            ask("remainder", 2 + n " " 4 - n)
        }
    }
}

# "Each side has a session and buffers of its own": what the one does drops and fetches nothing of the other's
function two_bodies() {
    ask("new 5000", "ok")
    decide("decide", 1, "0003000002", "9000 5532465f5632")
    ask("limit", 2)
    ask("cut 6", "9000 55326104")
    ask("side 1", "ok")
    ask("limit", 0)
    ask("remainder", "0 0")
    decide("decide", 2, "00c00000", "6985")
    decide("decide", 3, "00040000", "6d00")
    ask("ramp 40", "ok")
    decide("decide", 4, "0003000004", "9000 5532465f5632")
    ask("cut 6", "9000 5532465f6102")
    ask("side 0", "ok")
    ask("remainder", "2 4")
    decide("decide", 5, "00c0000002", "part 465f6102")
    ask("side 1", "ok")
    ask("remainder", "4 2")
    decide("decide", 6, "00c0000001", "part 566101")
    ask("side 0", "ok")
    decide("decide", 7, "00040000", "6d00")
    ask("remainder", "0 0")
    ask("side 1", "ok")
    decide("decide", 8, "00c00000", "part 329000")
    decide("decide", 9, "00c00000", "6985")
    ask("side 0", "ok")
    # a dry run writes nothing in the end, a Version's body neither
    ask("fill ee", "ok")
    ask("room 8", "ok")
    decide("try", 10, "00030000", "9000")
    ask("reply", "ok " repeated("ee", 8))
    decide("decide", 10, "00030000", "9000 5532465f5632")
    ask("reply", "ok 5532465f5632eeee")
    ask("room 1024", "ok")
    # a 9000 with no body comes from no call
    ask("outfill ee", "ok")
    ask("outroom 4", "ok")
    ask("cut 0", "0000")
    ask("out", "ok eeeeeeee")
    ask("outroom 131072", "ok")
}

# "one at a time, bound to the side that it came from"
function one_order() {
    ask("new 5000", "ok")
    decide("decide", 1, blind, ordered)
    ask("side 1", "ok")
    ask("finish - 1 30", "R7")
    decide("decide", 2, "00030000", "9000 5532465f5632")
    decide("decide", 3, "00020700" hex(73, 2) substr(login, 1, 146), "6985")
    ask("finish - 1 30", "R7")
    ask("side 0", "ok")
    # a refusal keeps it, and so do a certificate and a signature that do not fit
    decide("decide", 2, "00030000", "R1")
    ask("finish aa 1 30", "R4")
    ask("finish - 1 " repeated("30", 73), "R3")
    ask("finish - 1 30", "9000 000000000730")
    ask("finish - 1 30", "R7")
    # a later frame of its own side ends it, an order of the other side takes its place
    decide("decide", 4, blind, ordered)
    decide("decide", 5, "00c00000", "6985")
    ask("finish - 1 30", "R7")
    decide("decide", 6, blind, ordered)
    ask("side 1", "ok")
    decide("decide", 7, blind, ordered)
    ask("side 0", "ok")
    ask("finish - 1 30", "R7")
    ask("side 1", "ok")
    ask("finish - 0 -", "6f00")
    ask("finish - 1 30", "R7")
    ask("side 2", "ok")
    ask("finish - 1 30", "R8")
    ask("cut 6", "R8")
    ask("side 0", "ok")
}

BEGIN {
    x = repeated("11", 32)
    y = repeated("22", 32)
    challenge = repeated("03", 32)
    application = repeated("04", 32)
    handle = repeated("a1", 64)
    certificate = repeated("c2", 300)
    signature = repeated("30", 72)
    login = challenge application "08" repeated("b5", 8)
    enrolling = "00" application challenge handle "04" x y
    enrolment = "0504" x y "40" handle certificate signature
    lent = " " handle " 1 " certificate " 1 " x " " y " 1 7 1"
    blind = "00020800" hex(73, 2) login
    ordered = "order 2 1 " application "0000000007" challenge " 0"
    t = 1000
    ask("wrapper 1", "ok")
    ask("new 5000", "ok")
    spaces()
    rooms_asked()
    fetching()
    two_bodies()
    one_order()
    # a loop that ran over nothing would show nothing
    if (rooms < 90) exit 1
}
