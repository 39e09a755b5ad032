# picture_flags.awk: overtakings, and the loss of the lock, as both kinds of a picture show them: their words, the
# frames on the lanes of those passed over, and flags, the words above the lanes with a line down to the event. In
# order: those three.

BEGIN {
    FLAG_ROWS = 5
    FLAG_HIGH = 15
}

# ---- words

# By line k of the entry: over_many[k] waiters are passed, the joins over_join[k, 1] ..
function gather_overtakings(    j, i, k) {
    for (j = 1; j <= joins; j++)
        for (i = 1; i <= join_passed[j]; i++) {
            k = passer_entered[j, i]
            over_join[k, ++over_many[k]] = j
            over_joined[k] = passer_joined[j, i]
            join_last_passed[j] = k
        }
}

# Names at most so many of those passed over; where `short`, without their joins.
function overtaking_words(k, named_most, short,    n, s) {
    s = "line " k ": " at_who[k] (short ? "" : " (" start_past[edition] " " over_joined[k] ")") " passes "
    for (n = 1; n <= over_many[k] && n <= named_most; n++)
        s = s (n == 1 ? "" : n < over_many[k] ? ", " : " and ") passed_words(k, over_join[k, n], short)
    return s (over_many[k] > named_most ? " and " over_many[k] - named_most " more" : "")
}

# An interrupt taken by then is named: the claim of order speaks only of those who have taken none.
function passed_words(k, j, short) {
    if (short) return join_who[j]
    return join_who[j] " (" start_past[edition] " " join_line[j] \
        (interrupted(j, k) ? ", interrupt " join_interrupt[j] : "") ")"
}

function losing_words() {
    return "line " lost_line ": " at_who[lost_line] " loses the lock, and nobody enters any more"
}

function interrupted(j, k) {
    return join_interrupt[j] > 0 && join_interrupt[j] < k
}

# ---- frames

# From the join to the last entry that passes it over; `paint` is blush for the ground, band for the line around it.
function frames(paint, half,    j, x1, x2, y) {
    for (j = 1; j <= joins; j++) {
        if (join_passed[j] == 0 || join_line[j] > strip_hi || join_last_passed[j] < strip_lo) continue
        x1 = most_of(LEFT, x_of(join_line[j]))
        x2 = most_of(x1 + 4, least(strip_right, x_of(join_last_passed[j])))
        y = lane_y(join_who[j])
        if (paint == "blush") shape("blush", box(x1, y - half, x2 - x1, 2 * half))
        else band(x1, x2, y, half, join_line[j] >= strip_lo, join_last_passed[j] <= strip_hi,
            interrupted(j, passer_entered[j, 1]), frame_words(j))
    }
}

# One waiter may be passed over hundreds of times.
function frame_words(j) {
    if (join_passed[j] <= 8) return sentence(j)
    return "processor " join_who[j] ", " start_past[edition] " at line " join_line[j] ", was passed over by " \
        join_passed[j] " entries, the first at line " passer_entered[j, 1] " and the last at line " join_last_passed[j]
}

# ---- flags

# From right to left, as a flag can stand above those that begin to its right without its line crossing them. Where
# there is no room for its words it has a few of them, and else the mark alone has them. The loss of the lock always has
# room: as nobody enters after it, it is the first.
function place_flags(named_most, short,    k, f) {
    flags = flag_rows = flags_left_out = 0
    for (k = strip_hi; k >= strip_lo; k--) {
        if (!(k in over_many) && k != lost_line) continue
        f = flags + 1
        flag_line[f] = k
        if (flag_with(f, k, named_most, short) || flag_with(f, k, named_most, 1)) flags = f
        else flags_left_out++
    }
    close_rows()
}

function flag_with(f, k, named_most, short) {
    flag_words[f] = flag_said(k, named_most, short)
    return find_room(f, x_of(k), text_width(flag_words[f], 11, 1) + 6)
}

function flag_said(k, named_most, short) {
    return k == lost_line ? losing_words() : overtaking_words(k, named_most, short)
}

# A flag begins at its line, in the lowest row that is free; or it ends there, in the highest.
function find_room(f, x, wide,    r) {
    for (r = 0; r < FLAG_ROWS; r++)
        if (has_room(f, x, x - 3, x - 3 + wide, r)) return 1
    for (r = FLAG_ROWS - 1; r >= 0; r--)
        if (has_room(f, x, x + 3 - wide, x + 3, r)) return 1
    return 0
}

function has_room(f, x, x1, x2, r,    g) {
    if (x1 < 12 || x2 > page_width - 12) return 0
    for (g = 1; g < f; g++) {
        if (r == flag_row[g] && x1 < flag_x2[g] + 4 && x2 > flag_x1[g] - 4) return 0
        if (r > flag_row[g] && x > flag_x1[g] - 2 && x < flag_x2[g] + 2) return 0
        if (r < flag_row[g] && flag_x[g] > x1 - 2 && flag_x[g] < x2 + 2) return 0
    }
    flag_x[f] = x
    flag_x1[f] = x1
    flag_x2[f] = x2
    flag_row[f] = r
    return 1
}

# Rows that stay empty are taken out.
function close_rows(    r, f, used) {
    for (r = 0; r < FLAG_ROWS; r++) {
        used = 0
        for (f = 1; f <= flags; f++)
            if (flag_row[f] == r) {
                used = 1
                flag_row[f] = flag_rows
            }
        flag_rows += used
    }
}

function flags_high() {
    return flag_rows * FLAG_HIGH + (flags_left_out > 0 ? FLAG_HIGH : 0)
}

# `bottom` is the y below the lowest row.
function draw_flags(bottom, half,    f, y) {
    for (f = 1; f <= flags; f++) {
        y = bottom - flag_row[f] * FLAG_HIGH
        # broken where a number of the axis may stand
        shape("lead", straight(flag_x[f], y, flag_x[f], bottom + 1) \
            straight(flag_x[f], lanes_top - 4, flag_x[f], lane_y(at_who[flag_line[f]]) - half))
        write_text("flag", flag_x1[f] + 3, y - 4, "start", flag_words[f], flag_said(flag_line[f], N))
    }
    if (flags_left_out > 0)
        write_text("flag", LEFT, bottom - flag_rows * FLAG_HIGH - 4, "start", many_of(flags_left_out, \
            "more entry that overtakes has", "more entries that overtake have") \
            " no room for words here; the mark has them as its title")
}
