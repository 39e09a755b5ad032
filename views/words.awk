# words.awk: a log in words, one line for each of its lines, and the verdict at the end. Where a part is asked for, the
# other lines of events are left out; the verdict is of the whole log.

BEGIN {
    read_log()
    take_part()
    if (N > 0) printf "%4d  edition %d (%s), N %d: %s\n", 1, edition, edition_name[edition], N, all_processors()
    if (events > 0) event_table()
    printf "%4s  %s\n", (refused_at == "" ? "end" : refused_at), ending
    notes()
    print ""
    verdict()
    closing()
}

function all_processors() {
    return N == 1 ? "processor 0" : "processors 0 to " N - 1
}

function event_table(    k) {
    next_row()
    cell("line"); cell("processor"); cell("act"); cell("place"); cell("L"); cell("locked"); cell("next"); cell("flag")
    cell("guard")
    if (queued[edition]) cell("queue")
    cell("what happens")
    for (k = first_shown; k <= last_shown; k++) {
        next_row()
        cell(sprintf("%4d", k))
        cell(at_who[k])
        cell(at_act[k])
        cell(place_words(k))
        cell(none_or(at_tail[k]))
        cell(locked_name[at_locked[k]])
        cell(none_or(at_next[k]))
        cell(at_flag[k] ? "set" : "-")
        cell(at_guard[k] ? "set" : "-")
        if (queued[edition]) cell(at_queue[k])
        cell(at_note[k])
    }
    print_table("rrllllllll" (queued[edition] ? "l" : ""))
}

function place_words(k,    how) {
    how = at_from[k] != at_to[k] ? "to " : at_act[k] == "raise" ? "at " : "stays at "
    return how at_to[k] " " place_name[at_to[k]]
}

function none_or(x) {
    return x == NONE ? "none" : x
}

function notes(    k, alike) {
    if (events > 0 && queued[edition])
        print "\nqueue: *inside or handing on | who waits, in the order of the latest joins; [in service]" \
            (lost_line ? "; !lost with the lock" : "")
    if (events > 0 && !queued[edition]) print "\nL: who has the lock; this edition has no queue"
    for (k = first_shown; k <= last_shown; k++)
        if (at_act[k] ~ / or raise$/) alike = 1
    if (alike) print "\"or raise\": a step that stays and a raise of a raised processor give the same line."
}
