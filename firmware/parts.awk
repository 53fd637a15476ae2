# For firmware/test: calls of the panel on a pipe with bodies in parts, and what document 02, E2, has them answered, worked out here from
# its sentences and from nothing that the panel says.
#
#   awk -v calls=FILE -v answers=FILE -f firmware/parts.awk
#
# "For shapes 1 to 4, a body longer than Le (256 where absent) is cut: the first part goes out with 61 XX, XX the rest's length, or 00 for
# 256 and more. INS C0 .. fetches the next part under the same rule. Extended shapes get the whole body as now."

function ask(call, answer) {
    print call > calls
    print answer > answers
}

function hex(n, digits,    out) {
    out = ""
    for (; digits > 0; digits--) {
        out = substr("0123456789abcdef", n % 16 + 1, 1) out
        n = int(n / 16)
    }
    return out
}

# bytes of the ramp, from a place on
function bytes(place, n,    out, i) {
    out = ""
    for (i = place; i < place + n; i++) out = out hex(i % 251, 2)
    return out
}

function repeated(text, times,    out) {
    out = ""
    for (; times > 0; times--) out = out text
    return out
}

# a frame with no data: shape 1 without Le, shape 2 with one (256 is written 00), shape 8 for EXTENDED
function frame(ins, le) {
    if (le == EXTENDED) return "00" ins "0000" "000001"
    return "00" ins "0000" (le == ABSENT ? "" : hex(le % 256, 2))
}

function decide(what, answer) {
    ask("decide " ++moment " " what " - 0 - 0 " x " " y " 0 0 0", answer)
}

function decided(sent, answer) {
    decide("1 " sent, answer)
}

# how many bytes a frame with this Le takes of so many
function taken(le, count,    most) {
    most = le == EXTENDED ? count : le == ABSENT ? 256 : le
    return most < count ? most : count
}

function status(left) {
    return left == 0 ? "9000" : "61" (left < 256 ? hex(left, 2) : "00")
}

# the next part of what is left, told as `what`; at, left: what remains, as the model has it
function part(what, le, call,    n, bytes_now) {
    n = taken(le, left)
    bytes_now = substr(body, 2 * at + 1, 2 * n)
    at += n
    left -= n
    ask(call, what " " bytes_now status(left))
    ask("remainder", at " " left)
}

function fetch(le) {
    part("part", le, "decide " ++moment " 1 " frame("c0", le) " - 0 - 0 " x " " y " 0 0 0")
}

# a body of n bytes, whose first frame has this Le: Version's, so that its limit is held
function begin(n, le) {
    decided(frame("03", le), "9000 5532465f5632")
    ask("limit", le == EXTENDED ? 0 : le == ABSENT ? 256 : le)
    ask("remainder", "0 0")
    ask("ramp 00", "ok")
    body = bytes(0, n)
    at = 0
    left = n
    part("9000", le, "cut " n)
}

# nothing remains: 6985, no prompt, and the light does not ask
function nothing_left() {
    decided(frame("c0", ABSENT), "6985")
    ask("ask " moment, "no")
}

# what remains is kept, or dropped
function kept() {
    ask("remainder", at " " left)
}

function dropped() {
    ask("remainder", "0 0")
    nothing_left()
}

# a body of 600 bytes of which 256 went out
function started() {
    begin(600, ABSENT)
}

BEGIN {
    ABSENT = -1
    EXTENDED = -2
    x = repeated("11", 32)
    y = repeated("22", 32)
    moment = 0
    ask("new 5000", "ok")
    ask("outroom 1026", "ok")
    nothing_left()

    # every length at every Le, to the end; a body of n bytes takes n / Le parts, rounded up, and one where it is empty
    lengths = split("0 1 255 256 257 511 512 513 1024", length_of, " ")
    les = split("1 2 255 256 " ABSENT " " EXTENDED, le_of, " ")
    for (i = 1; i <= lengths; i++)
        for (j = 1; j <= les; j++) {
            begin(length_of[i], le_of[j])
            parts = 1
            while (left > 0) {
                fetch(le_of[j])
                parts++
            }
            most = le_of[j] == EXTENDED ? 1024 : le_of[j] == ABSENT ? 256 : le_of[j]
            if (parts != (length_of[i] == 0 ? 1 : int((length_of[i] + most - 1) / most))) exit 1
            nothing_left()
        }
    # at Le values that change from one frame to the next, and the rest at once
    for (i = 1; i <= lengths; i++) {
        begin(length_of[i], 2)
        for (j = 0; left > 0 && j < 12; j++) fetch(j % 3 == 0 ? 1 : j % 3 == 1 ? 7 : 33)
        if (left > 0) fetch(EXTENDED)
        nothing_left()
    }

    # "C0 after a Version": whole, then nothing is left; at Le 2 in three parts
    decided(frame("03", ABSENT), "9000 5532465f5632")
    ask("cut 6", "9000 5532465f56329000")
    nothing_left()
    decided(frame("03", 2), "9000 5532465f5632")
    ask("cut 6", "9000 55326104")
    decided(frame("c0", 2), "part 465f6102")
    decided(frame("c0", 2), "part 56329000")
    nothing_left()

    # an enrolment of 67 + 64 + 300 + 70 = 501 bytes in two parts, then at an Le of 200 in three
    handle = repeated("a1", 64)
    certificate = repeated("c2", 300)
    signature = repeated("30", 70)
    challenge = repeated("03", 32)
    application = repeated("04", 32)
    enrolment = "0504" x y "40" handle certificate signature
    to_sign = "00" application challenge handle "04" x y
    lent = " " handle " 1 " certificate " 1 " x " " y " 0 0 0"
    for (i = 0; i < 2; i++) {
        register = "0001000040" challenge application (i ? "c8" : "")
        ask("decide " ++moment " 1 " register lent, "6985")
        ask("touch " ++moment, "yes")
        ask("decide " ++moment " 1 " register lent, "order 1 0 " to_sign " 300")
        ask("limit", i ? 200 : 256)
        ask("finish " certificate " 1 " signature, "9000 " enrolment)
        body = enrolment
        at = 0
        left = 501
        part("9000", i ? 200 : ABSENT, "cut 501")
        while (left > 0) fetch(i ? 200 : 245)
        nothing_left()
    }

    # "a refused C0 or any R refusal keeps it"
    started()
    decided("00c00100", "6a86")
    decided("00c00001", "6a86")
    decided("00c00100" "01aa", "6a86")
    decided("00c00000" "01aa", "6700 lc 4")
    decided("00c00000" "000001aa", "6700 lc 4")
    decided("01c00000", "6e00")
    decided("80c00100" "01aa", "6e00")
    decide("0 " frame("c0", ABSENT), "6986")
    decide("2 " frame("c0", ABSENT), "6f00")
    ask("decide 0 1 " frame("c0", ABSENT) " - 0 - 0 " x " " y " 0 0 0", "R1")
    ask("decide 0 1 " frame("03", 7) " - 0 - 0 " x " " y " 0 0 0", "R1")
    # E7's R8 is one of them, at C0 as at every frame
    for (i = split("2 4294967295 4294967296 18446744073709551615", no_side, " "); i > 0; i--) {
        ask("side " no_side[i], "ok")
        decided(frame("c0", ABSENT), "R8")
        decided(frame("03", 7), "R8")
        decided("00c0000000000005", "R8")
    }
    ask("side 0", "ok")
    ask("limit", 256)
    ask("room 5", "ok")
    decided(frame("03", ABSENT), "R2")
    ask("room 1024", "ok")
    kept()
    # touch, check, ask and finish have nothing to do with it
    ask("ask " moment, "no")
    ask("touch " ++moment, "no")
    ask("check " ++moment, "no")
    ask("touch " ++moment, "yes")
    ask("check " ++moment, "yes")
    ask("finish - 1 30", "R7")
    kept()
    fetch(ABSENT)
    # to the core what remains belongs to no side: the other one, lent it, fetches the rest. With the wrapper it does not: firmware/wrapper.awk
    ask("side 1", "ok")
    fetch(ABSENT)
    nothing_left()
    ask("side 0", "ok")

    # "A frame with another INS or in no shape drops the remainder", whatever it is answered
    drops = split("00040000 01030000 00030100 00010000 00020000 00a40000 000300 00c000 00c000000001 00c00000030707 00c0000001aa0000 -", frame_of, " ")
    split("6d00|6e00|9000 5532465f5632|6700 lc 4|6700 lc 4|6d00|6a80|6a80|6700 missing 6|6700 missing 7|6700 surplus 7|6a80", answer_of, "|")
    for (i = 1; i <= drops; i++) {
        started()
        decided(frame_of[i], answer_of[i])
        dropped()
    }
    # E13: the old form, an extended Lc and an Le of one byte, is in no shape any more: of C0 with Lc 0 and 1, also where P1 or CLA is
    # wrong, of Version and of Register. A byte more makes it shape 7, in which C0 fetches all, and is refused with data
    olds = split("00c0000000000005 00c00000000001aa00 00c0010000000005 80c0000000000005 0003000000000005 0001000000003f" repeated("03", 63) "00", frame_of, " ")
    split("7 8 7 7 7 70", place_of, " ")
    for (i = 1; i <= olds; i++) {
        started()
        decided(frame_of[i], "6700 surplus " place_of[i])
        ask("limit", 0)
        dropped()
    }
    started()
    decide("0 00c0000000000005", "6986")
    dropped()
    started()
    ask("decide 0 1 00c0000000000005 - 0 - 0 " x " " y " 0 0 0", "R1")
    decided("00c00000000001aa0000", "6700 lc 4")
    kept()
    part("part", EXTENDED, "decide " ++moment " 1 00c000000000000005 - 0 - 0 " x " " y " 0 0 0")
    nothing_left()
    started()
    decide("0 " frame("03", ABSENT), "6986")
    dropped()
    started()
    decide("2 " frame("04", ABSENT), "6f00")
    dropped()
    started()
    ask("decide " ++moment " 1 " register lent, "6985")
    ask("remainder", "0 0")
    decided(frame("c0", ABSENT), "6985")
    ask("touch " ++moment, "yes")
    ask("check " ++moment, "yes")

    # a first part replaces any older remainder
    started()
    body = bytes(0, 300)
    at = 0
    left = 300
    part("9000", ABSENT, "cut 300")
    fetch(ABSENT)

    # "R2 when the lent body is too short for its remainder or the buffer for part and status": one byte short, and enough. Nothing has moved
    started()
    ask("outfill ee", "ok")
    ask("room 599", "ok")
    decided(frame("c0", ABSENT), "R2")
    ask("next 256", "R2")
    ask("cut 600", "R2")
    kept()
    ask("room 600", "ok")
    ask("outroom 257", "ok")
    decided(frame("c0", ABSENT), "R2")
    ask("next 256", "R2")
    ask("cut 600", "R2")
    kept()
    ask("out", "ok " repeated("ee", 257))
    ask("outroom 260", "ok")
    fetch(ABSENT)
    ask("out", "ok " bytes(256, 256) "6158" "eeee")
    ask("outroom 89", "ok")
    decided(frame("c0", ABSENT), "R2")
    ask("outroom 90", "ok")
    fetch(ABSENT)
    ask("outroom 1", "ok")
    nothing_left()
    ask("cut 0", "R2")
    ask("outroom 2", "ok")
    ask("cut 0", "9000 9000")
    ask("outroom 1025", "ok")
    ask("room 1024", "ok")
    decided(frame("03", EXTENDED), "9000 5532465f5632")
    ask("cut 1024", "R2")
    ask("remainder", "0 0")
    ask("outroom 1026", "ok")
    begin(1024, EXTENDED)
    # nothing remains: 6985 comes before R2, and of a count of 0 the place is not looked at
    ask("remain 7000 0", "ok")
    nothing_left()
    ask("remainder", "7000 0")
    ask("room 0", "ok")
    nothing_left()
    ask("room 1024", "ok")
    ask("outroom 1024", "ok")

    # a place and a count whose sum no machine word holds; the body's end itself; limits that no frame has
    ask("ramp 00", "ok")
    far = "18446744073709551615"
    ask("remain " far " 1", "ok")
    ask("next 1", "R2")
    decided(frame("c0", ABSENT), "R2")
    ask("remain 1 " far, "ok")
    ask("next 1", "R2")
    decided(frame("c0", ABSENT), "R2")
    ask("remainder", "1 " far)
    ask("remain 1024 1", "ok")
    ask("next 1", "R2")
    ask("remain 1023 1", "ok")
    ask("next 1", "9000 " bytes(1023, 1) "9000")
    ask("remainder", "1024 0")
    ask("next 1", "9000 9000")
    ask("remain 0 600", "ok")
    ask("next 300", "9000 " bytes(0, 300) "6100")
    ask("next 299", "9000 " bytes(300, 299) "6101")
    ask("next 18446744073709551615", "9000 " bytes(599, 1) "9000")
    ask("remain 3 512", "ok")
    ask("next 256", "9000 " bytes(3, 256) "6100")
    ask("next 1", "9000 " bytes(259, 1) "61ff")
    ask("next 0", "9000 " bytes(260, 255) "9000")

    # the response form: written, read, and what is none
    ask("outfill ee", "ok")
    ask("outroom 6", "ok")
    ask("respond 36864 -", "9000 9000")
    ask("respond 27013 0102", "9000 01026985")
    ask("respond 65535 01020304", "9000 01020304ffff")
    ask("respond 0 0102030405", "R2")
    ask("respond 65536 -", "? a word that it does not take")
    ask("out", "ok 01020304ffff")
    ask("outroom 8", "ok")
    ask("out", "ok 01020304ffffeeee")
    ask("response 01020304ffff", "65535 4")
    ask("response 6985", "27013 0")
    ask("response 9000009000", "36864 3")
    ask("response 90", "R2")
    ask("response -", "R2")
    ask("outroom 1024", "ok")

    # the fourth command
    ask("command 00c00000", "getresponse")
    ask("command 00c0000005", "getresponse")
    ask("command 00c00000000000", "getresponse")
    ask("command 00c0000000000005", "6700 surplus 7")
    ask("command 00c000000000000005", "getresponse")
    ask("command 00c00001", "6a86")
    ask("command 00c00100" "01aa", "6a86")
    ask("command 00c00000" "01aa", "6700 lc 4")
    ask("command 01c00001", "6e00")
    ask("parts 00c00000", "none")

    # a dry run says what is to come, and neither moves nor writes anything
    started()
    ask("outfill ee", "ok")
    ask("outroom 4", "ok")
    ask("try " (moment + 1) " 1 " frame("c0", 2) " - 0 - 0 " x " " y " 0 0 0", "part")
    ask("try " (moment + 1) " 1 " frame("c0", 3) " - 0 - 0 " x " " y " 0 0 0", "R2")
    ask("out", "ok eeeeeeee")
    kept()
    fetch(2)
}
