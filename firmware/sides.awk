# For firmware/test: calls of the panel on a pipe from two sides, and what document 02, E7, has them answered. First stories with their
# answers written out, then histories whose answers are worked out here from its sentences and from nothing that the panel says.
#
#   awk -v calls=FILE -v answers=FILE -f firmware/sides.awk
#
# "A prompting refusal makes its side the asker, in place of any earlier. An accepted touch belongs to the asker. If the other side reaches
# the touch check while a touch is live, it gets 6985, nothing is opened or spent, and that is no prompting refusal. .. Refusals: R8 for a
# side other than 0 or 1, named or in the record, after R6 and before R1." Here USB is side 0, and wireless side 1.

function ask(call, answer) {
    print call > calls
    print answer > answers
}

function repeated(text, times,    out) {
    out = ""
    for (; times > 0; times--) out = out text
    return out
}

function side(n) {
    named = n
    ask("side " n, "ok")
}

# what a Register and a login are lent, and what they come to
function decide(t, sent, answer) {
    ask("decide " t " 1 " sent lent, answer)
}

function login(p1) {
    return "0002" p1 "0049" challenge application "08" repeated("b5", 8)
}

function order(sent) {
    if (sent == REGISTER) return "order 1 0 00" application challenge "a1a1" "04" x y " 3"
    return "order 2 1 " application (sent == ENFORCING ? "01" : "00") "00000007" challenge " 0"
}

# "USB and wireless on one pad. A touch that wireless asked for must not release a USB login"
function wireless_asks() {
    ask("new 5000", "ok")
    ask("record", "5000 - - 0 0")
    side(1)
    decide(100, REGISTER, "6985")
    ask("record", "5000 100 - 100 1")
    ask("ask 150", "yes")
    ask("touch 200", "yes")
    ask("record", "5000 - 200 200 1")
    side(0)
    decide(300, ENFORCING, "6985")
    ask("record", "5000 - 200 300 1")
    ask("try 305 1 " ENFORCING lent, "6985")
    ask("check 310", "no")
    ask("ask 310", "no")
    ask("touch 320", "no")
    ask("record", "5000 - 200 320 1")
    side(1)
    ask("try 400 1 " REGISTER lent, "order 0")
    decide(400, REGISTER, order(REGISTER))
    ask("record", "5000 - - 400 1")
    ask("finish c2c2c2 1 3000", "9000 0504" x y "02a1a1" "c2c2c2" "3000")
}

# "in place of any earlier": USB takes over the prompt, and the touch after it is USB's
function usb_takes_over() {
    decide(500, ENFORCING, "6985")
    ask("record", "5000 500 - 500 1")
    side(0)
    decide(600, ENFORCING, "6985")
    ask("record", "5000 600 - 600 0")
    ask("touch 700", "yes")
    side(1)
    decide(800, ENFORCING, "6985")
    ask("check 810", "no")
    ask("record", "5000 - 700 810 0")
    side(0)
    decide(900, ENFORCING, order(ENFORCING))
    ask("record", "5000 - - 900 0")
    ask("finish - 1 3000", "9000 01000000073000")
    # a check takes it over as a decision does
    ask("check 910", "no")
    side(1)
    ask("check 920", "no")
    ask("record", "5000 920 - 920 1")
    ask("touch 930", "yes")
    side(0)
    ask("check 940", "no")
    side(1)
    ask("check 950", "yes")
    ask("record", "5000 - - 950 1")
}

# a touch that has lapsed keeps nobody out: at its last moment the other side opens nothing, at the next it is the asker
function lapses() {
    side(0)
    decide(1000, REGISTER, "6985")
    ask("touch 1100", "yes")
    side(1)
    decide(6099, REGISTER, "6985")
    ask("record", "5000 - 1100 6099 0")
    decide(6100, REGISTER, "6985")
    ask("record", "5000 6100 1100 6100 1")
    ask("touch 6200", "yes")
    side(0)
    ask("check 6200", "no")
    side(1)
    ask("check 6200", "yes")
}

# what does not come to the touch check makes nobody the asker, and takes nothing
function no_asking(t,    i) {
    side(1)
    ask("check " t, "no")
    side(0)
    for (i = 1; i <= 2; i++) {
        decide(t, "00030000", "9000 5532465f5632")
        decide(t, login("07"), "6985")
        decide(t, login("08"), order(login("08")))
        decide(t, "00c00000", "6985")
        decide(t, "00010000", "6700 lc 4")
        decide(t, login("05"), "6a80")
        ask("decide " t " 0 " REGISTER lent, "6986")
        ask("room 76", "ok")
        decide(t, ENFORCING, "R2")
        decide(t, REGISTER, "R2")
        ask("room 1024", "ok")
        ask("record", i == 1 ? "5000 " t " - " t " 1" : "5000 - " t " " t " 1")
        if (i == 1) ask("touch " t, "yes")
    }
    side(1)
    decide(t, ENFORCING, order(ENFORCING))
}

# every call that looks at a side, at the moment t; touch and ask look at the record's alone
function by_the_record(t, answer) {
    ask("touch " t, answer)
    ask("ask " t, answer)
}

function by_the_name(t, answer) {
    ask("check " t, answer)
    decide(t, "00030000", answer)
    decide(t, login("07"), answer)
    decide(t, login("08"), answer)
    decide(t, "00c00000", answer)
    decide(t, REGISTER, answer)
    decide(t, ENFORCING, answer)
    decide(t, "000300", answer)
    decide(t, "000300000001", answer)
    ask("decide " t " 0 " REGISTER lent, answer)
    ask("try " t " 1 " REGISTER lent, answer)
}

# R8 by itself, then R6 before R8 before R1
function no_side(n,    i) {
    ask("new 5000", "ok")
    side(0)
    ask("check 100", "no")
    side(n)
    by_the_name(200, "R8")
    ask("record", "5000 100 - 100 0")
    ask("ask 200", "yes")
    ask("touch 200", "yes")
    by_the_name(300, "R8")
    by_the_name(100, "R8")
    by_the_record(100, "R1")
    ask("record", "5000 - 200 200 0")
    side(0)
    ask("check 300", "yes")
    ask("resume 5000 100 - 100 " n, "ok")
    for (i = 0; i <= 1; i++) {
        side(i)
        by_the_name(200, "R8")
        by_the_name(99, "R8")
    }
    by_the_record(200, "R8")
    by_the_record(99, "R8")
    by_the_record("281474976710656", "R8")
    ask("record", "5000 100 - 100 " n)
    side(n)
    for (i = 0; i <= 60001; i += 60001) {
        ask("resume " i " 100 - 100 " n, "ok")
        by_the_name(99, "R6")
        by_the_record(99, "R6")
    }
    ask("resume 5000 100 - 100 1", "ok")
    by_the_name(99, "R8")
    by_the_record(99, "R1")
    side(1)
    by_the_name(99, "R1")
    ask("new 0", "R6")
    ask("record", "5000 100 - 100 1")
}

# the ends of both windows, on each side: a prompt of 10,000 ms, a touch of W
function ends(n, w) {
    side(n)
    ask("new " w, "ok")
    ask("check 0", "no")
    ask("ask 9999", "yes")
    ask("ask 10000", "no")
    ask("touch 10000", "no")
    ask("check 10000", "no")
    ask("touch 19999", "yes")
    ask("check " 19998 + w, "yes")
    ask("check " 19999 + w, "no")
    ask("touch " 19999 + w, "yes")
    decide(19999 + 2 * w, REGISTER, "6985")
    ask("record", w " " 19999 + 2 * w " " 19999 + w " " 19999 + 2 * w " " n)
    ask("touch " 19999 + 2 * w, "yes")
    decide(19998 + 3 * w, REGISTER, order(REGISTER))
}

# the side is of the calls and not of the record; a line that is no call leaves it
function the_call() {
    side(1)
    ask("new 5000", "ok")
    ask("side 18446744073709551616", "? a word that it does not take")
    ask("side -", "? a word that it does not take")
    ask("side", "? another number of words")
    ask("side 0 0", "? another number of words")
    ask("check 0", "no")
    ask("record", "5000 0 - 0 1")
    ask("resume 5000 0 - 0", "? another number of words")
    ask("resume 5000 0 - 0 18446744073709551616", "? a word that it does not take")
    ask("resume 5000 0 - 0 -", "? a word that it does not take")
    ask("record", "5000 0 - 0 1")
    ask("resume 0 - - 0 1", "ok")
    ask("record", "0 - - 0 1")
    ask("resume 0 - - 0 0", "ok")
    ask("record", "? no record yet")
}

# ---- histories: each call that was not refused is kept, with its moment, its side and what came of it; the answers are looked up there

function dice(n) {
    seed = seed * 16807 % 2147483647
    return seed % n
}

function noted(kind, t, n) {
    count++
    met[kind]++
    came[count] = kind
    moment[count] = t
    whose[count] = n
}

# the latest call that came to this; 0 where there is none
function latest(kind,    i) {
    for (i = count; i > 0 && came[i] != kind; i--);
    return i
}

# the side of the latest prompting refusal
function asker(    i) {
    i = latest("prompting")
    return i ? whose[i] : 0
}

# the touch that was accepted and has served nobody
function unspent(    i) {
    i = latest("accepted")
    return latest("served") > i ? 0 : i
}

function prompt(    i) {
    i = latest("prompting")
    return latest("accepted") > i ? 0 : i
}

function is_within(i, lasts, t) {
    return i && t < moment[i] + lasts
}

# what the touch check comes to
function checked(t) {
    if (!is_within(unspent(), w, t)) {
        noted("prompting", t, named)
        return 0
    }
    if (whose[unspent()] != named) {
        noted("kept out", t, named)
        return 0
    }
    noted("served", t, named)
    return 1
}

function touched(t) {
    if (!is_within(prompt(), 10000, t)) {
        noted("not accepted", t, named)
        return 0
    }
    noted("accepted", t, asker())
    return 1
}

function window(i) {
    return i ? moment[i] : "-"
}

function one_call(t,    what, yes) {
    what = dice(9)
    if (what == 0) side(dice(8) ? dice(2) : 2 + dice(3))
    else if (what <= 2) ask("touch " t, touched(t) ? "yes" : "no")
    else if (what == 3) ask("ask " t, is_within(prompt(), 10000, t) ? "yes" : "no")
    else if (named > 1) {
        if (what == 4) ask("check " t, "R8")
        else decide(t, what == 5 ? "00030000" : REGISTER, "R8")
    }
    else if (what == 4) ask("check " t, checked(t) ? "yes" : "no")
    else if (what == 5) {
        decide(t, "00030000", "9000 5532465f5632")
        noted("something else", t, named)
    }
    else if (what == 6) decide(t, REGISTER, checked(t) ? order(REGISTER) : "6985")
    else decide(t, ENFORCING, checked(t) ? order(ENFORCING) : "6985")
    ask("record", w " " window(prompt()) " " window(unspent()) " " moment[count] + 0 " " asker())
}

function history(    t, i) {
    split("", came)
    split("", moment)
    split("", whose)
    count = 0
    w = dice(2) ? 5000 : 1 + dice(60000)
    ask("new " w, "ok")
    side(dice(2))
    t = 0
    split("0 1 50 9998 9999 10000 " w - 1 " " w " " w + 1, steps, " ")
    for (i = 0; i < 40; i++) {
        # mostly soon after the one before, so that windows are live; else at the ends of both
        t += steps[1 + dice(dice(4) ? 3 : 9)]
        one_call(t)
    }
}

BEGIN {
    x = repeated("11", 32)
    y = repeated("22", 32)
    challenge = repeated("03", 32)
    application = repeated("04", 32)
    REGISTER = "0001000040" challenge application
    ENFORCING = login("03")
    lent = " a1a1 1 c2c2c2 1 " x " " y " 1 7 1"
    wireless_asks()
    usb_takes_over()
    lapses()
    no_asking(7000)
    # 8 bits, 32 or all but the highest of 32 would be a side, of most of these
    for (n = split("2 256 257 65536 65537 2147483648 2147483649 4294967295 4294967296 4294967297 18446744073709551615", number, " "); n > 0; n--)
        no_side(number[n])
    for (n = 0; n <= 1; n++) {
        ends(n, 1)
        ends(n, 5000)
        ends(n, 60000)
    }
    the_call()
    seed = 7
    for (h = 0; h < 60; h++) history()
    # histories that never come to one of these would show nothing of it
    for (n = split("prompting,accepted,not accepted,served,kept out,something else", kinds, ","); n > 0; n--)
        if (met[kinds[n]] < 20) exit 1
}
