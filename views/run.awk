# run.awk: what a replayed log shows of the queue: joins, entries, interrupts taken, who waits, who was passed over, and
# whether the lock was lost. The words are those of docs/RANDOM.md, 'The verdict in numbers'. In order: joins and
# entries, the queue, the order.
# The old edition has no joins: there the first try takes the place of the join, here and in every view.
#
# What is left of line k: at_queue, and whether k is in at_join, at_entry, at_interrupt. Of join j, from 1 to joins:
# join_who and join_line; join_end (entered, again or open) and join_end_line; join_waited, the entries of others in its
# stretch; join_interrupt, the line of the first interrupt taken in it, or 0; join_passed, the number of overtakings,
# and of each of them, i from 1: passer_who[j, i], passer_joined[j, i], passer_entered[j, i].
#
# And lost_line, the line at which the lock is lost, or 0. It is lost once: who loses it has it for ever.

BEGIN {
    joins = entries = interrupts = overtakings = standing = lost_line = 0
}

# An event of processor p that stood at `from` has been carried out.
function follow(p, from, stepped) {
    if (stepped && (from == SWAP || from == TRY && first_try(p))) join(p)
    if (stepped && (from in service_of) && now["place", p] == service_of[from]) interrupt(p)
    if (stepped && from != INSIDE && now["place", p] == INSIDE) enter(p)
    if (stepped && from != LOST && now["place", p] == LOST) lost_line = number
    if (stepped) came_from[p] = from
    if (queued[edition]) at_queue[number] = queue()
}

# Whether a step of processor p at 23 is the first since it left rest, and not one after a poll or a service.
function first_try(p) {
    return came_from[p] == REST
}

function join(p) {
    close_stretch(p, "again")
    joins++
    at_join[number] = 1
    join_who[joins] = p
    join_line[joins] = latest[p] = number
    join_end[joins] = "open"
    join_end_line[joins] = join_waited[joins] = join_interrupt[joins] = join_passed[joins] = 0
    open[p] = joins
    stand_last(p)
}

function close_stretch(p, how) {
    if (!(p in open)) return
    join_end[open[p]] = how
    join_end_line[open[p]] = number
    delete open[p]
}

function interrupt(p) {
    interrupts++
    at_interrupt[number] = 1
    if (join_interrupt[open[p]] == 0) join_interrupt[open[p]] = number
}

function enter(p,    q, j, passed_over) {
    entries++
    at_entry[number] = 1
    close_stretch(p, "entered")
    for (q = 0; q < N; q++) {
        if (!(q in open)) continue
        j = open[q]
        join_waited[j]++
        if (latest[p] < join_line[j]) continue
        overtake(j, p)
        passed_over = passed_over (passed_over == "" ? "" : " and ") q
    }
    if (passed_over != "") at_note[number] = at_note[number] ", passing over " passed_over
}

function overtake(j, p,    i) {
    overtakings++
    i = ++join_passed[j]
    passer_who[j, i] = p
    passer_joined[j, i] = latest[p]
    passer_entered[j, i] = number
}

# ---- the queue

# Processor p now has the latest join; line_up has all who ever joined, the earliest of the latest joins first.
function stand_last(p,    k, kept) {
    kept = 0
    for (k = 1; k <= standing; k++)
        if (line_up[k] != p) line_up[++kept] = line_up[k]
    standing = kept + 1
    line_up[standing] = p
}

# Who is inside (starred), lost (!) or handing on, a bar, and who waits, in the order of the latest joins; in service in
# brackets.
function queue(    k, p, where, inside, handing, waiting) {
    for (k = 1; k <= standing; k++) {
        p = line_up[k]
        where = phase[now["place", p]]
        if (where == "inside") inside = inside " *" p
        if (where == "lost") inside = inside " !" p
        if (where == "handing on") handing = handing " " p
        if (where == "waiting") waiting = waiting " " p
        if (where == "in service") waiting = waiting " [" p "]"
    }
    handing = inside handing
    if (handing waiting == "") return "-"
    return (handing == "" ? "-" : substr(handing, 2)) (waiting == "" ? "" : " |" waiting)
}

# ---- the order that plain and guarded keep

# Such an overtaking is in no log of lockbench: the waiter had taken no interrupt yet, or its join led to an entry.
function impossible(j, i) {
    if (!ordered[edition]) return 0
    return join_end[j] == "entered" || join_interrupt[j] == 0 || passer_entered[j, i] < join_interrupt[j]
}

# If one is found the replay itself is wrong, as no run of these editions has it (NobodyLaterEnters, NobodyOvertakes).
function judge_order(    j, i) {
    for (j = 1; j <= joins; j++)
        for (i = 1; i <= join_passed[j]; i++)
            if (impossible(j, i)) {
                number = passer_entered[j, i]
                fail("processor " passer_who[j, i] " passes over " join_who[j] ", which joined at line " join_line[j] \
                    "; the " edition_name[edition] " edition never does that, so the log is not lockbench's")
            }
}

# In words: whom an entry of processor p would pass over.
function would_pass(p,    q, list) {
    for (q = 0; q < N; q++)
        if (q != p && (q in open) && (p in latest) && latest[p] > join_line[open[q]])
            list = list (list == "" ? "" : ", ") q " (" start_past[edition] " at line " join_line[open[q]] ")"
    return list == "" ? "" : "; the entry that it shows would pass over " list
}
