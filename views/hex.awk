# hex.awk: a schedule in words, such as schedules/back_in_time.steps, to the schedule in hexadecimal. The words, line by
# line:
#
#     guarded 3        first the edition (plain, drawn, guarded or old) and N
#     step 0 x4        four steps of processor 0
#     raise 1          one raise of processor 1
#
# Numbers are decimal. Blank lines are passed over, and so is all from a # on. What comes out is accepted by lockbench,
# whole.

BEGIN {
    what = "words"
    rest = read_lines()
    # a text written by hand may end without its line feed
    if (rest != "") take(rest)
    if (N == 0) fail("there is no edition; " first_line())
    for (k = 1; k <= lines; k++) print line_of[k]
}

function take(text,    words) {
    sub(/#.*/, "", text)
    gsub(/[ \t\r]+/, " ", text)
    sub(/^ /, "", text)
    sub(/ $/, "", text)
    if (text == "") return
    words = split(text, word, " ")
    if (N == 0) header(words)
    else act(words)
}

function first_line(    e, list) {
    for (e = 0; e < EDITIONS; e++) list = list (e == 0 ? "" : e < EDITIONS - 1 ? ", " : " or ") edition_name[e]
    return "the first line is " list ", and N"
}

function header(words,    e) {
    for (e = EDITIONS - 1; e >= 0; e--)
        if (word[1] == edition_name[e]) break
    if (e < 0) fail("'" word[1] "' is no edition; " first_line())
    if (words < 2) fail("N is missing after '" word[1] "'")
    if (words > 2) fail("'" word[3] "' is too much; the first line is an edition and N")
    N = whole(word[2])
    if (N < 1 || N > PROCESSORS) fail("N is " word[2] ", and must be 1 to " PROCESSORS)
    write(1, e, N)
}

function act(words,    event, p, times) {
    event = word[1] == "step" ? 1 : word[1] == "raise" ? 2 : 0
    if (event == 0) fail("'" word[1] "' is neither step nor raise")
    if (words < 2) fail("the processor is missing after '" word[1] "'")
    p = whole(word[2])
    if (p >= N) fail("processor " p " is not below N, which is " N)
    if (words > 3)
        fail("'" word[4] "' is too much; a line is step or raise, a processor, and at most a count such as x4")
    times = 1
    if (words == 3) {
        if (word[3] !~ /^x/) fail("'" word[3] "' is no count; a count is written such as x4")
        times = whole(substr(word[3], 2))
        if (times == 0) fail("x0 is no count; it must be 1 or more")
    }
    if (events + times > MOST) fail("a schedule has no more than 6,000 events")
    events += times
    for (; times > 0; times--) write(2, event, p)
}

function whole(text) {
    if (text !~ /^(0|[1-9][0-9]*)$/) fail("'" text "' is no decimal number")
    if (length(text) > 6) fail(text " is too large")
    return text + 0
}

function write(first, second, third) {
    line_of[++lines] = checked(sprintf("%02X%02X%02X", first, second, third))
}
