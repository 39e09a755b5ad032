# verdict.awk: who waited how long, who was passed over by whom, and whether the lock was lost, told from a replayed
# log. It ends every log in words; verdict_main.awk prints it alone. In order: the table of joins, the sentences, the
# summary in a few words.

function verdict(    j) {
    print "Verdict"
    print ""
    if (N == 0) {
        print "there is no run: " ending
        return
    }
    if (joins > 0) {
        join_table()
        print ""
    }
    if (lost_line) {
        print lost_words() ": it has the lock and knows no one to hand it to, so nobody enters any more"
        print in_vain()
        print ""
    }
    for (j = 1; j <= joins; j++)
        if (join_passed[j] > 0) print sentence(j)
    if (overtakings == 0) print "nobody was passed over"
    else print "\n" claim()
}

# Ends every view in words.
function closing() {
    print "\nAll of this is told from the log, by replaying it. None of it is proved."
}

function join_table(    j) {
    next_row()
    cell(start_past[edition]); cell("processor"); cell("led to"); cell("waited through"); cell("interrupt")
    cell("passed over by")
    for (j = 1; j <= joins; j++) {
        next_row()
        cell(join_line[j])
        cell(join_who[j])
        cell(led_to(j))
        cell(join_waited[j] (join_waited[j] == 1 ? " entry" : " entries"))
        cell(join_interrupt[j] ? "at line " join_interrupt[j] : "none")
        cell(passers(j, ", ", ""))
    }
    print_table("rrllll")
}

function led_to(j) {
    if (join_end[j] == "entered") return "entry at line " join_end_line[j]
    if (join_end[j] == "again") return "a new " start_noun[edition] " at line " join_end_line[j]
    return "no entry in this log"
}

# Everybody who passed this join over.
function passers(j, between, by,    i, list) {
    for (i = 1; i <= join_passed[j]; i++)
        list = list (i == 1 ? "" : between) by passer(passer_who[j, i], passer_joined[j, i], passer_entered[j, i])
    return list == "" ? "-" : list
}

function passer(q, joined, entered) {
    return q " (" start_past[edition] (joined == entered ? " and" : " " joined ",") " entered " entered ")"
}

function lost_words() {
    return "the lock is lost from line " lost_line " on, with processor " at_who[lost_line]
}

# Who has joined and not entered. There always is one: the processor from which the lock was taken back.
function in_vain(    j, many, list) {
    for (j = 1; j <= joins; j++)
        if (join_end[j] == "open")
            list = list (++many == 1 ? "" : " and ") join_who[j] " (" start_past[edition] " " join_line[j] ")"
    return list (many == 1 ? " waits" : " wait") " for it in vain"
}

function sentence(j,    how) {
    if (join_end[j] == "entered") how = " and entered at line " join_end_line[j]
    else if (join_end[j] == "again") how = " and, without an entry, again at line " join_end_line[j]
    else how = " and not entered by the end of the log"
    return "processor " join_who[j] ", " start_past[edition] " at line " join_line[j] how ", was passed over " \
        passers(j, " and ", "by ") "; it had taken " interrupt_taken(j)
}

# When it was first passed over it may have taken no interrupt yet.
function interrupt_taken(j) {
    if (join_interrupt[j] == 0) return "no interrupt"
    if (join_interrupt[j] < passer_entered[j, 1]) return "an interrupt at line " join_interrupt[j]
    return "no interrupt before line " join_interrupt[j]
}

# What the edition claims, where somebody was passed over all the same.
function claim() {
    if (!queued[edition]) return "The " edition_name[edition] " edition keeps no order, and none is claimed."
    if (!ordered[edition]) return "The " edition_name[edition] " edition carries no claim of order."
    return "Demand 3 claims nothing of a waiter that has taken an interrupt. NobodyOvertakes covers the last join\n" \
        "before an entry, with any interrupts; these joins led to no entry."
}

# The verdict in a few words.
function summary(    j, many, who) {
    if (overtakings == 0) return "nobody was passed over"
    for (j = 1; j <= joins; j++)
        if (join_passed[j] > 0) {
            many++
            who = "processor " join_who[j] " was passed over " passers(j, " and ", "by ")
        }
    return many == 1 ? who : many " " start_nouns[edition] " were passed over, in " overtakings " overtakings"
}
