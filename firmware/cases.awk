# A case file of cases/, read for firmware/test: its calls go to one file, and the answers that they must get, line by line, to the
# other, names spelled out. A line that is none of these is told with its number:
#
#   # ..                  a remark; a line may be empty, too
#   NAME = HEX            a name, of small letters, for a byte string; $NAME stands for it from then on
#   NAME = HEX * TIMES    the same, so many times over
#   > CALL                a call of the panel on a pipe (firmware/panel.c)
#   < ANSWER              the answer that the call before it must get
#
#   awk -v calls=FILE -v answers=FILE -f firmware/cases.awk CASES      ends with 1 where a line was told
function tell(line, what) {
    print ARGV[1] ":" line ": " what
    told++
}

# the panel takes a line of so many characters, its end among them
function spell(text,    out, name) {
    out = ""
    while (match(text, /\$[a-z]*/)) {
        name = substr(text, RSTART + 1, RLENGTH - 1)
        if (!(name in is)) {
            tell(NR, "a name that nothing has: " name)
            return ""
        }
        out = out substr(text, 1, RSTART - 1) is[name]
        text = substr(text, RSTART + RLENGTH)
    }
    out = out text
    if (length(out) >= 1048576) {
        tell(NR, "too long")
        return ""
    }
    return out
}

function repeated(bytes, times,    half) {
    if (times == 0) return ""
    half = repeated(bytes, int(times / 2))
    return times % 2 ? half half bytes : half half
}

# what is told once has a name all the same, so that it is not told again where that is used
function define(name, bytes, times,    before) {
    before = told
    bytes = spell(bytes)
    is[name] = ""
    if (told > before) return
    if (bytes !~ /^[0-9a-fA-F]+$/ || length(bytes) % 2) tell(NR, "no bytes in hex")
    else if (length(bytes) * times >= 1048576) tell(NR, "too long")
    else is[name] = repeated(bytes, times)
}

BEGIN {
    printf "" > calls
    printf "" > answers
}
/^#/ || /^$/ { next }
/^> / {
    if (waiting) tell(waiting, "a call with no answer")
    waiting = NR
    print spell(substr($0, 3)) > calls
    next
}
/^< / {
    if (!waiting) tell(NR, "an answer with no call")
    waiting = 0
    print spell(substr($0, 3)) > answers
    next
}
/^[a-z]+ = [^ \t]+$/ { define($1, $3, 1); next }
/^[a-z]+ = [^ \t]+ \* [0-9]+$/ { define($1, $3, $5); next }
{ tell(NR, "neither call, answer, name nor remark") }
END {
    if (waiting) tell(waiting, "a call with no answer")
    exit (told > 0)
}
