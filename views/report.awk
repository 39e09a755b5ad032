# report.awk: a report in numbers, on standard input, to the report for people. The environment has LEFT, the file with
# a sentence for each that is left out. In order: who held up whom, by processor, the table, what is left out.

BEGIN {
    SHOWN = 20
    WIDEST = 120
    highest = 0
    if (read_reports() != 1) not_saved("it is not one report")
    add_up()
    print "Who made whom wait"
    print ""
    print many(counted, "schedule", "schedules") " counted, " plain(left) " left out" (left ? ", named at the end" : "")
    greatest_first()
    by_processor()
    if (pairs_found > 0) matrix()
    left_out()
    print ""
    print "The table, and each schedule's numbers, are the proved program's."
    print "The totals, the order and the layout are made by awk, and not proved."
}

function took_report() {
}

# Sums of rows and of columns, the processors that occur, and the pairs in their order: greatest first, of equal ones
# the first by number.
function add_up(    a, b, k) {
    for (a = 0; a < PROCESSORS; a++) {
        for (k = 1; k <= KINDS; k++) occurs(a, total[a, k])
        for (b = 0; b < PROCESSORS; b++) {
            held_up[a] += charge[a, b]
            waited[b] += charge[a, b]
            occurs(a, charge[a, b])
            occurs(b, charge[a, b])
            if (charge[a, b] > 0) insert(a, b)
        }
    }
}

function occurs(p, count) {
    if (count > 0 && p > highest) highest = p
}

function insert(a, b,    k) {
    for (k = ++pairs_found; k > 1 && charge[by_pair[k - 1], of_pair[k - 1]] < charge[a, b]; k--) {
        by_pair[k] = by_pair[k - 1]
        of_pair[k] = of_pair[k - 1]
    }
    by_pair[k] = a
    of_pair[k] = b
}

# ---- who held up whom

function greatest_first(    k, count, shown, size) {
    print ""
    if (pairs_found == 0) {
        print "Nobody waited through an entry of another."
        return
    }
    print "Who held up whom, greatest first"
    shown = pairs_found > SHOWN ? SHOWN : pairs_found
    size = length(plain(charge[by_pair[1], of_pair[1]]))
    for (k = 1; k <= shown; k++) {
        count = charge[by_pair[k], of_pair[k]]
        printf "%4d made %" length(highest) "d wait: %" size "s %s\n", by_pair[k], of_pair[k], plain(count), \
            (count == 1 ? "entry" : "entries")
    }
    if (pairs_found > shown)
        print "     and " many(pairs_found - shown, "pair", "pairs") " more; the table has them all"
}

# ---- by processor

function by_processor(    p, k, old) {
    print ""
    print "By processor"
    next_row()
    cell("processor"); cell("held up others"); cell("was held up")
    for (k = 1; k <= KINDS; k++) cell(kind[k])
    for (p = 0; p <= highest; p++) {
        next_row()
        cell(p); cell(plain(held_up[p])); cell(plain(waited[p]))
        for (k = 1; k <= KINDS; k++) cell(plain(total[p, k]))
        if (total[p, 1] > total[p, 3]) old = 1
    }
    print_table("rrrrrr")
    if (old)
        print "More entries than joins: schedules of the old edition are among these; " \
            "it has no joins, and charges nobody."
}

# ---- the table

function matrix(    b) {
    print ""
    print "The table: row a, column b is how many entries of a fell between a join of b and the entry that join led to"
    for (b = 0; b <= highest; b = columns_from(b));
}

# As many columns as a line holds, from this one on; answers the one after them.
function columns_from(first,    a, b, last, align, size) {
    size = length("a \\ b")
    for (last = first; last <= highest && size + 2 + column_size(last) <= WIDEST; last++)
        size += 2 + column_size(last)
    if (first > 0) print ""
    next_row()
    cell("a \\ b")
    align = "r"
    for (b = first; b < last; b++) {
        cell(b)
        align = align "r"
    }
    for (a = 0; a <= highest; a++) {
        next_row()
        cell(a)
        for (b = first; b < last; b++) cell(shown_count(charge[a, b]))
    }
    print_table(align)
    return last
}

function column_size(b,    a, most) {
    most = length(b)
    for (a = 0; a <= highest; a++)
        if (length(shown_count(charge[a, b])) > most) most = length(shown_count(charge[a, b]))
    return most
}

function shown_count(x) {
    return x == 0 ? "-" : plain(x)
}

# ---- what is left out

function left_out(    line) {
    if (left == 0) return
    print ""
    print "Left out"
    while ((getline line < ENVIRON["LEFT"]) > 0) print "    " line
}
