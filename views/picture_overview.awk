# picture_overview.awk: a long part of a log on one page. The lines are cut into cells; each lane shows in each cell
# how many of its lines the processor spent in each phase. In order: the page, what the cells hold, lanes, overtakings,
# numbers, the list.

BEGIN {
    CELLS = 61
    LISTED = 16
}

# ---- the page

function overview(    p) {
    strip_lo = lo
    strip_hi = hi
    col = SPAN / (hi - lo + 1)
    strip_right = LEFT + SPAN
    per_cell = round_up((hi - lo + 1) / CELLS)
    if (per_cell > 10) per_cell = 5 * round_up(per_cell / 5)
    # a few lines that are left over go to the last cell
    cells_shown = int((hi - lo + 1) / per_cell + 0.75)
    lane_high = N <= 8 ? 44 : 30
    page_width = strip_right + RIGHT
    head(1)
    fill_cells()
    place_flags(2, 1)
    down += flags_high()
    lanes_top = down + 18
    scale()
    for (p = 0; p < N; p++) share_lane(p)
    frames("band", lane_high / 2 - 2)
    for (p = 0; p < N; p++) passing_entries(p)
    lost_event()
    draw_flags(down, 6)
    end_mark(N * lane_high)
    down = lanes_top + N * lane_high + 14
    number_rows()
    listed_overtakings()
}

# The lines of cell c.
function cell_from(c) {
    return lo + (c - 1) * per_cell
}

function cell_to(c) {
    return c == cells_shown ? hi : cell_from(c) + per_cell - 1
}

function cell_middle(c) {
    return (x_of(cell_from(c)) + x_of(cell_to(c))) / 2
}

function cell_of(k) {
    return least(int((k - lo) / per_cell) + 1, cells_shown)
}

# ---- what the cells hold

function fill_cells(    p, i, c, a, b, k) {
    for (p = 0; p < N; p++)
        for (i = 1; i <= stretches_of[p]; i++) {
            a = most_of(lo, stretch_from[p, i])
            b = least(hi, stretch_to[p, i])
            if (a > b) continue
            for (c = cell_of(a); c <= cell_of(b); c++)
                spent[p, c, stretch_phase[p, i]] += least(b, cell_to(c)) - most_of(a, cell_from(c)) + 1
        }
    for (k = lo; k <= hi; k++) {
        if (!(k in at_who)) continue
        if (k in at_join) tally("joins", at_who[k], cell_of(k))
        if (k in at_entry) tally("entries", at_who[k], cell_of(k))
        if (k in at_interrupt) tally("interrupts", at_who[k], cell_of(k))
    }
}

function tally(kind, p, c) {
    tallied[kind, p, c]++
    tallied[kind, "all", c]++
}

# ---- lanes

function scale(    k, n, every, bottom) {
    bottom = lanes_top + N * lane_high
    every = 10
    for (n = 1; every * col < 60; n++) every *= n % 3 == 2 ? 2.5 : 2
    write_text("small", LEFT - 8, lanes_top - 6, "end", "line")
    for (k = lo; k <= hi; k++) {
        if (k % every > 0) continue
        shape("edge", straight(x_of(k), lanes_top - 4, x_of(k), bottom))
        write_text("small", x_of(k), lanes_top - 6, "middle", k)
    }
    shape("edge", straight(LEFT, lanes_top, strip_right, lanes_top))
}

function share_lane(p,    c, y) {
    y = lane_y(p)
    lane_label(p, y)
    write_text("small", strip_right + 6, y + 3.5, "start", p)
    shape("rest", straight(LEFT, y + lane_high / 2 - 4, strip_right, y + lane_high / 2 - 4))
    add("<g class=\"cells\">")
    for (c = 1; c <= cells_shown; c++) share_cell(p, c, y)
    close_group()
}

# From below: inside, lost, handing on, and so on; at rest is the paper above them.
function share_cell(p, c, y,    i, x, wide, high, part, foot) {
    x = LEFT + (cell_from(c) - lo) * col
    wide = (cell_to(c) - cell_from(c) + 1) * col
    high = lane_high - 8
    foot = y + lane_high / 2 - 4
    open_group(share_words(p, c))
    shape("hover", box(x, foot - high, wide, high))
    for (i = 1; i < PHASES; i++) {
        part = spent[p, c, phase_named[i]] * high / (cell_to(c) - cell_from(c) + 1)
        if (part == 0) continue
        foot -= part
        area(phase_named[i], x, foot, wide, part)
    }
    close_group()
}

function share_words(p, c,    i, s, n) {
    for (i = 1; i <= PHASES; i++) {
        n = spent[p, c, phase_named[i]] + 0
        if (n > 0) s = s (s == "" ? "" : ", ") phase_named[i] " " n
    }
    return "processor " p ", " line_or_lines(cell_from(c), cell_to(c)) ": " s "; " \
        many_of(tallied["joins", p, c] + 0, start_noun[edition], start_nouns[edition]) ", " \
        many_of(tallied["entries", p, c] + 0, "entry", "entries") ", " \
        many_of(tallied["interrupts", p, c] + 0, "interrupt", "interrupts")
}

# ---- overtakings

# One mark for all entries of processor p in a cell that overtake, as they would hide each other.
function passing_entries(p,    c) {
    for (c = 1; c <= cells_shown; c++) passing_mark(p, c)
}

function passing_mark(p, c,    k, n, i, x, first, lanes) {
    for (k = cell_from(c); k <= cell_to(c); k++) {
        if (!(k in over_many) || at_who[k] != p) continue
        if (++n == 1) first = k
        for (i = 1; i <= over_many[k]; i++) lanes[join_who[over_join[k, i]]] = 1
    }
    if (n == 0) return
    x = n == 1 ? x_of(first) : cell_middle(c)
    for (i = 0; i < N; i++) if (i in lanes) shape("thin", straight(x, lane_y(p), x, lane_y(i)))
    entry_mark(x, lane_y(p), n == 1 ? 6 : 8.5, "overentry", overtaking_words(first, N) \
        (n == 1 ? "" : "; and " many_of(n - 1, "more entry", "more entries") " up to line " cell_to(c)))
    if (n > 1) write_text("within", x, lane_y(p) + 3, "middle", n)
}

# ---- numbers

function number_rows() {
    number_row("joins", start_nouns[edition])
    number_row("entries", "entries")
    number_row("interrupts", "interrupts")
    down -= 8
}

function number_row(kind, label,    c, n) {
    write_text("", 12, down, "start", label)
    for (c = 1; c <= cells_shown; c++) {
        n = tallied[kind, "all", c] + 0
        write_text(n > 0 ? "small" : "small pale", cell_middle(c), down, "middle", n,
            line_or_lines(cell_from(c), cell_to(c)) ": " label " " n)
    }
    down += 14
}

# ---- the list

function cell_words(    left_over) {
    left_over = hi - cell_from(cells_shown) + 1
    return "A cell has " per_cell " lines of the log" (left_over == per_cell ? "" : ", the last one " left_over) \
        "; the bars in it show how many of them the processor spent in each phase. --from and --to show a part line " \
        "by line, up to " DETAIL " lines of it."
}

function listed_overtakings(    k, n) {
    paragraph("", cell_words(), 11, 16, 0)
    for (k = lo; k <= hi; k++) {
        if (!(k in over_many)) continue
        if (++n > LISTED) continue
        if (n == 1) write_text("lane", 12, down += 20, "start", "Entries that overtake, and the part to look at:")
        write_text("", 24, down += 16, "start", overtaking_words(k, 3) ":  " part_around(k))
    }
    if (n > LISTED) write_text("", 24, down += 16, "start", "and " n - LISTED " more")
    if (lost_line >= lo && lost_line <= hi)
        write_text("lane", 12, down += 20, "start", losing_words() "; the part to look at:  " part_around(lost_line))
    down += 14
}

# From the earliest join that the entry passes, or the last join of the one that loses the lock, if that is near
# enough to be shown line by line.
function part_around(k,    a, b) {
    a = k == lost_line ? latest[at_who[k]] : join_line[over_join[k, 1]]
    b = least(last, 10 * round_up((k + 5) / 10))
    a = most_of(1, 10 * int((a - 5) / 10))
    return "--from " most_of(a, b - DETAIL + 1) " --to " b
}
