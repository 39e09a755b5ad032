# steps.awk: a schedule in hexadecimal to the words that hex.awk reads. Only what lockbench accepts whole is told;
# hex.awk then gives the same lines back, in upper case.

BEGIN {
    what = "schedule"
    if (read_lines() != "") fail("the last line has no line feed")
    if (number == 1) fail("the schedule is empty")
    print edition_name[edition] " " N
    for (k = 1; k <= runs; k++) print run_of[k] (times[k] > 1 ? " x" times[k] : "")
}

function take(text,    kind) {
    text = digits_of(text)
    kind = substr(text, 1, 2)
    if (kind ~ /^0[345]$/) fail("begins " kind ", which is a line of a log; a schedule is wanted")
    if (number == 1 && kind != "01") fail("does not begin 01")
    if (number > 1 && kind != "02") fail("does not begin 02")
    well_formed(text, kind, 8)
    if (number == 1) take_header(v[2], v[3])
    else act(v[2], v[3])
}

function act(event, p,    words) {
    if (event != 1 && event != 2) fail(refusal[8])
    if (p >= N) fail("processor " p " is not below N, which is " N)
    if (number > MOST + 1) fail("a schedule has no more than 6,000 events")
    words = (event == 1 ? "step " : "raise ") p
    if (runs == 0 || run_of[runs] != words) run_of[++runs] = words
    times[runs]++
}
