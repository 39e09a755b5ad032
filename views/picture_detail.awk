# picture_detail.awk: a part of a log line by line, in strips below each other. What happens at line k is at x_of(k),
# and the phase that it leads to lasts until the processor's next event. In order: strips, axis and lanes, events.

BEGIN {
    STRIP = 80
}

# ---- strips

function detail(    shown, strips, per, a) {
    shown = hi - lo + 1
    strips = round_up(shown / STRIP)
    per = round_up(shown / strips)
    # strips that begin alike are easier to compare
    if (strips > 1) per = 5 * round_up(per / 5)
    col = hi == 1 ? 240 : int(least(36, SPAN / per))
    lane_high = N <= 6 ? 32 : 26
    page_width = most_of(LEFT + per * col + RIGHT, 860)
    head(0)
    for (a = lo; a <= hi; a += per) strip(a, least(a + per - 1, hi))
    down += 4
}

function x_of(k) {
    return LEFT + (k - strip_lo + 0.5) * col
}

function lane_y(p) {
    return lanes_top + (p + 0.5) * lane_high
}

function strip(a, b,    p, k) {
    strip_lo = a
    strip_hi = b
    strip_right = LEFT + (b - a + 1) * col
    place_flags(2, 0)
    down += flags_high()
    lanes_top = down + 18
    grid()
    frames("blush", 11.5)
    for (p = 0; p < N; p++) lane(p)
    frames("band", 11.5)
    for (k = a; k <= b; k++) if (k in at_who) happening(k)
    for (k = a; k <= b; k++) if (k in over_many) overtaking(k)
    lost_event()
    draw_flags(down, 9)
    if (b == 1) write_text("", strip_right + 24, lanes_top + lane_high / 2 + 4, "start", "no events")
    end_mark(N * lane_high)
    down = lanes_top + N * lane_high + (N > 5 ? 14 : 0) + 16
    if (b == last && refused_at != "") write_text("lane", strip_right, down - 2, "end", "line " refused_at " refused")
}

# ---- axis and lanes

function grid(    k, x, bottom, every) {
    bottom = lanes_top + N * lane_high
    every = col >= 22 ? 1 : 5
    write_text("small", LEFT - 8, lanes_top - 6, "end", "line")
    for (k = strip_lo; k <= strip_hi; k++) {
        x = x_of(k)
        if (k % 5 == 0) shape("grid", straight(x, lanes_top, x, bottom))
        shape("edge", straight(x, lanes_top - 3, x, lanes_top))
        # the first line has its number, unless it would touch the next one
        if (k % every > 0 && (k > strip_lo || k % every > 3)) continue
        write_text("small", x, lanes_top - 6, "middle", k)
        if (N > 5) write_text("small", x, bottom + 12, "middle", k)
    }
    shape("edge", straight(LEFT, lanes_top, strip_right, lanes_top) straight(LEFT, bottom, strip_right, bottom))
}

function lane(p,    i, y, x1, x2) {
    y = lane_y(p)
    lane_label(p, y)
    write_text("small", strip_right + 6, y + 3.5, "start", p)
    for (i = 1; i <= stretches_of[p]; i++) {
        if (stretch_to[p, i] < strip_lo - 1 || stretch_from[p, i] > strip_hi) continue
        x1 = i == 1 ? LEFT : most_of(LEFT, x_of(stretch_from[p, i]))
        x2 = least(strip_right, x_of(stretch_to[p, i] + 1))
        bar(stretch_phase[p, i], x1, x2, y, "processor " p " " stretch_phase[p, i] ", " \
            line_or_lines(stretch_from[p, i], stretch_to[p, i]))
    }
}

# ---- events

# Line k as a log in words has it.
function line_words(k,    s) {
    s = "line " k ": processor " at_who[k] ", " at_act[k] ", " (at_from[k] == at_to[k] ? "at " : "to ") at_to[k] " " \
        place_name[at_to[k]]
    return s (at_note[k] == "" ? "" : ", " at_note[k]) (queued[edition] ? "; queue: " at_queue[k] : "")
}

# The whole place of the event answers a hover, as a tick is too thin for it.
function happening(k,    x, y, said) {
    x = x_of(k)
    y = lane_y(at_who[k])
    said = "line " k ": processor " at_who[k] " " at_note[k]
    open_group(line_words(k))
    shape("hover", box(x - col / 2, y - lane_high / 2, col, lane_high))
    event_tick(x, y)
    close_group()
    if (at_act[k] == "raise") request_mark(x, y, request_words(k))
    if (at_pass[k] != "") arrow(at_pass[k], x, lane_y(at_giver[k]), lane_y(at_taker[k]), said)
    if (!(k in at_join) && !(k in at_entry)) return
    open_group(said)
    if (k in at_join) join_mark(x, y)
    if (k in at_entry) entry_mark(x, y, 5.5, "entry")
    close_group()
}

function request_words(k) {
    return "line " k ": interrupt request for processor " at_who[k] (at_note[k] == "" ? "" : ", " at_note[k])
}

# Where that line is shown; no line is 0.
function lost_event() {
    if (lost_line >= strip_lo && lost_line <= strip_hi)
        lost_mark(x_of(lost_line), lane_y(at_who[lost_line]), losing_words())
}

function overtaking(k,    n, x, y) {
    x = x_of(k)
    y = lane_y(at_who[k])
    for (n = 1; n <= over_many[k]; n++) over_mark(x, y, lane_y(join_who[over_join[k, n]]), overtaking_words(k, N))
    entry_mark(x, y, 8.5, "overentry", overtaking_words(k, N))
}
