# log.awk: reads a log of lockbench on standard input, in upper or lower case, and replays it from the fresh state.
# Every view of a log begins here. In order: the reading, a line of each kind, an event.
#
# An 03 line does not say which event it answers, and shows one row. So both events of its processor are tried on the
# state that the lines before it have led to: the line is what a step gives, or a raise, or both. Where it is neither,
# the log is not lockbench's: one sentence with the number of its line goes to standard error, and the status is 1.
#
# What is left: edition, N, events; last, the line of the last event; ending, the last line in words; and of each
# event, by its line k, at_who, at_from and at_to (places), at_act, at_tail, at_locked, at_next, at_flag, at_guard,
# at_note, and at_pass, at_giver, at_taker where the lock goes from one to another. run.awk has joins, entries and the
# queue. take_part() gives first_shown and last_shown, where a view shows a part.

BEGIN {
    what = "log"
    size["01"] = 8; size["03"] = 16; size["04"] = 8; size["05"] = 10
    N = events = 0
    last = 1
}

# ---- reading

function read_log() {
    if (read_lines() != "") fail("the last line has no line feed")
    if (number == 1) fail("the log is empty")
    if (ending == "") fail("the log ends without an 04 or 05 line")
    judge_order()
}

# The lines that `from` and `to` ask for: those of events from first_shown to last_shown.
function take_part(    asked) {
    first_shown = from == "" || from < 2 ? 2 : from + 0
    last_shown = to == "" || to > last ? last : to + 0
    if (from to == "" || first_shown <= last_shown) return
    asked = from == "" ? "up to line " to : to == "" ? "from line " from " on" : "from line " from " to " to
    print "lockbench: " asked " there is no event in this log, " \
        (events == 0 ? "which has none" : "whose events are at lines 2 to " last) > "/dev/stderr"
    exit 1
}

# One whole line: its form, its check, and whether it may stand here.
function take(text,    kind) {
    if (ending != "") fail("nothing may follow the 04 or 05 line")
    text = digits_of(text)
    kind = substr(text, 1, 2)
    if (kind == "02") fail("begins 02, which is a line of a schedule; give the schedule to ./lockbench first")
    if (!(kind in size)) fail("does not begin with 01, 03, 04 or 05")
    well_formed(text, kind, size[kind])
    if (number == 1 && kind != "01" && kind != "05") fail("an " kind " line before the 01 line")
    if (number > 1 && kind == "01") fail("a second 01 line")
    if (kind == "01") opening(v[2], v[3])
    if (kind == "03") event(v[2], v[3], v[4], v[5], v[6], v[7])
    if (kind == "04") count(v[2] * 256 + v[3])
    if (kind == "05") refused(v[2], v[3] * 256 + v[4])
}

# ---- a line of each kind

# 01 edition N check: the fresh state
function opening(e, n,    p) {
    take_header(e, n)
    now["L", LOCK] = NONE
    for (p = 0; p < N; p++) {
        now["next", p] = now["pred", p] = now["succ", p] = now["nx", p] = NONE
        now["locked", p] = RELEASED
        now["guard", p] = now["flag", p] = 0
        now["place", p] = REST
    }
}

# 03 processor place L locked next marks check
function event(p, to, tail, locked, behind, marks) {
    if (p >= N) fail("processor " p " is not below N")
    if (!((edition, to) in has)) fail("the " edition_name[edition] " edition has no place " to)
    if (!processor_or_none(tail)) fail("L is neither a processor nor none")
    if (!(locked in locked_name)) fail("locked is over 3")
    if (!processor_or_none(behind)) fail("next is neither a processor nor none")
    if (marks > 7) fail("the marks are over 7")
    if (events == MOST) fail("a schedule has no more than 6,000 events")
    events++
    last = number
    happens(p, to " " tail " " locked " " behind " " marks)
}

function processor_or_none(x) {
    return x < N || x == NONE
}

# 04 high low check
function count(accepted) {
    if (accepted != events) fail("the 04 line counts " accepted " events, but " events " stand before it")
    ending = accepted (accepted == 1 ? " event" : " events") " accepted"
}

# 05 refusal high low check. Before line 1 the bytes are counted, line 1 alone makes the state, a later line is an
# event.
function refused(r, at,    stands) {
    if (!(r in refusal)) fail("refusal " r " ends no log")
    if ((number > 1 && (r == 1 || r == 6 || r == 7)) || (number == 1 && r >= 8) || number > MOST + 1)
        fail("refusal " r " is not given at line " number " of a schedule")
    stands = r == 1 ? 0 : number
    if (at != stands) fail("refusal " r " names line " at " of the schedule, but stands for line " stands)
    refused_at = at
    ending = "REFUSED, no. " r ": " refusal[r]
}

# ---- an event

# The row of an 03 line, as processor p's is after the writes noted.
function row_after(p, entry) {
    return after("place", p) " " after("L", LOCK) " " after("locked", p) " " after("next", p) " " \
        after("flag", p) + 2 * after("guard", p) + 4 * entry
}

function happens(p, shown,    raised, stepped, from) {
    from = now["place", p]
    raise(p)
    raised = row_after(p, 0)
    step(p)
    stepped = row_after(p, after("place", p) == INSIDE)
    if (shown != stepped && shown != raised) not_lockbenchs(p, shown, stepped, raised)
    at_act[number] = place_name[from]
    if (shown == stepped && shown == raised) at_act[number] = place_name[from] " or raise"
    else if (shown == raised) {
        raise(p)
        at_act[number] = "raise"
    }
    carry_out()
    note(p, from)
    follow(p, from, at_act[number] != "raise")
}

# What the views need of this line.
function note(p, from) {
    at_who[number] = p
    at_from[number] = from
    at_to[number] = now["place", p]
    at_tail[number] = now["L", LOCK]
    at_locked[number] = now["locked", p]
    at_next[number] = now["next", p]
    at_flag[number] = now["flag", p]
    at_guard[number] = now["guard", p]
    at_note[number] = did
    at_pass[number] = pass
    at_giver[number] = giver
    at_taker[number] = taker
}

function not_lockbenchs(p, shown, stepped, raised,    passed) {
    split(shown, v, " ")
    passed = v[1] == INSIDE && v[5] >= 4 ? would_pass(p) : ""
    fail("no event of processor " p " gives this line after the lines before it, so the log is not lockbench's; " \
        "a step (" place_name[now["place", p]] ") gives " row_line(p, stepped) \
        ", a raise " row_line(p, raised) passed)
}

function row_line(p, row) {
    split(row, v, " ")
    return checked(sprintf("03%02X%02X%02X%02X%02X%02X", p, v[1], v[2], v[3], v[4], v[5]))
}
