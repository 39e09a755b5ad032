# numbers.awk: a log in words to docs/RANDOM.md's verdict in numbers, for .ci/verdicts. Each step is added to the file that
# `places` names: edition, name of the place, place it leads to. The status is 1 where the verdict does not say that the lock is
# lost though one goes to place 28, or names another line; or where somebody enters after that line.

/^   1  edition / { edition = $3; N = $6 + 0 }
/^line / { act = index($0, "act"); place = index($0, "place"); next }
/^$/ { act = table = 0 }
act && /^ *[0-9]+ / && $2 != "REFUSED," { event($1, substr($0, act, place - act), substr($0, place)) }
table { joins = joins "\n" join($1, $2, $0) }
/^(joined|first tried) / { table = 1 }
/^the lock is lost from line / { told = $7 }
END {
    if (N == 0) exit
    print "run " edition " " N " " events + 0
    print "acts " (letters == "" ? "none" : letters) joins
    exit told + 0 != lost + 0 || late
}

function event(line, name, to) {
    events++
    if (lost && to ~ /^to 9 /) late = 1
    if (to ~ /^to 28 /) lost = line
    sub(/ +$/, "", name)
    letters = letters (name == "raise" ? "r" : name ~ / or raise$/ ? "b" : "s")
    if (name == "raise") return
    sub(/^(to|stays at) /, "", to)
    print edition, substr(name, 1, index(name " ", " ") - 1), to + 0 >>places
}

function join(joined, p, line,    out) {
    rest = line
    out = (edition == 3 ? "try " : "join ") p " " joined
    if (cut("entry at line [0-9]+")) out = out " entered " found
    else if (cut("a new (join|first try) at line [0-9]+")) out = out " again " found
    else if (cut("no entry in this log")) out = out " open 0"
    cut("[0-9]+ entr(y|ies)")
    out = out " " number
    out = out " " (cut("at line [0-9]+") ? found : 0)
    while (cut("[0-9]+ [(](joined|first tried) (and|[0-9]+,) entered [0-9]+[)]")) {
        out = out " " number " "
        out = out (text ~ / and entered/ ? found : substr(text, index(text, "ed ") + 3) + 0) " " found
    }
    return out
}

# The next text in the rest of the line that matches; `number` is then its first number, and `found` its last.
function cut(pattern) {
    if (!match(rest, pattern)) return 0
    text = substr(rest, RSTART, RLENGTH)
    rest = substr(rest, RSTART + RLENGTH)
    number = text + 0
    found = text
    sub(/[^0-9]+$/, "", found)
    sub(/.*[^0-9]/, "", found)
    return 1
}
