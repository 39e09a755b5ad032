# picture.awk: a log as one SVG: a lane for each processor, the lines of the log from left to right. `from` and `to`
# name a part. Up to DETAIL lines are drawn line by line (picture_detail.awk), more as an overview
# (picture_overview.awk). All is told from the log, and the picture says so. In order: the part to show, what both
# kinds need of the run, the head of the page, a log without a run.

BEGIN {
    read_log()
    DETAIL = 320
    SPAN = 1120
    LEFT = 96
    RIGHT = 34
    choose_part()
    if (N == 0) no_run()
    else {
        stretches()
        gather_overtakings()
        if (hi - lo + 1 <= DETAIL) detail()
        else overview()
        print_svg(page_width, down, picture_name(), about(), style(page_width > down))
    }
}

# ---- the part to show

# The header has a column of its own where the part begins with it.
function choose_part() {
    take_part()
    lo = from + 0 < 2 ? 1 : first_shown
    hi = last_shown
}

# ---- what both kinds need of the run

# Stretch i of processor p, from 1 to stretches_of[p]: its phase, and the lines after which it has it.
function stretches(    p, k, n) {
    for (p = 0; p < N; p++) {
        stretches_of[p] = 1
        stretch_phase[p, 1] = phase[REST]
        stretch_from[p, 1] = 1
    }
    for (k = 2; k <= last; k++) {
        p = at_who[k]
        n = stretches_of[p]
        if (phase[at_to[k]] == stretch_phase[p, n]) continue
        stretch_to[p, n] = k - 1
        stretches_of[p] = ++n
        stretch_phase[p, n] = phase[at_to[k]]
        stretch_from[p, n] = k
    }
    for (p = 0; p < N; p++) stretch_to[p, stretches_of[p]] = last
}

function line_or_lines(a, b) {
    return a == b ? "line " a : "lines " a " to " b
}

function many_of(n, one, several) {
    return n " " (n == 1 ? one : several)
}

# ---- the head of the page

function picture_name(    s) {
    s = summary()
    # one waiter may be passed over hundreds of times
    if (length(s) > 300) s = "one " start_noun[edition] " was passed over, by " overtakings " entries"
    return edition_name[edition] ", N " N ": " (lost_line ? lost_words() "; " : "") s
}

function shown_words(    s) {
    s = line_or_lines(lo, hi) (lo > 1 || hi < last ? " of " last : "") "; "
    if (refused_at != "") s = s many_of(events, "event", "events") " accepted, then line " refused_at " "
    return s ending
}

function about() {
    return "A lane for each of " many_of(N, "processor", "processors") ", " shown_words() ". In the whole log: " \
        many_of(joins, start_noun[edition], start_nouns[edition]) ", " many_of(entries, "entry", "entries") ", " \
        many_of(interrupts, "interrupt", "interrupts") " taken, " many_of(overtakings, "overtaking", "overtakings") \
        ". Told from the log by replaying it, not proved."
}

# Whether those passed over had taken an interrupt: the claim of order speaks only of those who have taken none.
function interrupt_words(    j, passed, free, s) {
    for (j = 1; j <= joins; j++) {
        if (join_passed[j] == 0) continue
        passed++
        if (interrupted(j, passer_entered[j, 1])) continue
        if (++free > 3) continue
        s = s (free == 1 ? "" : "; ") "processor " join_who[j] " (" start_past[edition] " " join_line[j] "), " \
            at_most_passers(j)
    }
    if (passed == 0) return ""
    if (passed == 1) return "It had taken " (free ? "no" : "an") " interrupt before."
    if (free == 0) return "Each of them had taken an interrupt before."
    return "Those that had taken no interrupt before: " s (free > 3 ? "; and " free - 3 " more." : ".")
}

function at_most_passers(j) {
    return join_passed[j] > 4 ? "by " join_passed[j] " entries" : passers(j, " and ", "by ")
}

# Title, subtitle and legend; `down` is then the y below them.
function head(cells) {
    down = 12
    paragraph("big", picture_name(), 16, 20, 1)
    paragraph("lane", interrupt_words(), 11, 16, 1)
    paragraph("", shown_words() ". Told from the log by replaying it, not proved.", 11, 16, 0)
    down = legend(12, page_width - 12, down + 22, cells)
}

function paragraph(class, s, points, high, bold,    part, n, k) {
    if (s == "") return
    n = wrap(s, letters_in(page_width - 24, points, bold), part)
    for (k = 1; k <= n; k++) write_text(class, 12, down += high, "start", part[k])
}

function lane_label(p, y) {
    write_text("lane", 12, y + 4, "start", "processor " p)
}

# Where a refused line ends the log.
function end_mark(high) {
    if (strip_hi == last && refused_at != "")
        shape("end", straight(strip_right, lanes_top, strip_right, lanes_top + high), "line " refused_at ": " ending)
}

# ---- a log without a run

function no_run(    s) {
    down = 12
    page_width = 680
    s = "no run: " (refused_at > 0 ? "line " refused_at " " : "") ending
    paragraph("big", s, 16, 20, 1)
    paragraph("", "Told from the log, not proved.", 11, 18, 0)
    print_svg(page_width, down + 14, s, "Told from the log, not proved.", style(1))
}
