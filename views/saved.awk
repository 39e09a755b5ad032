# saved.awk: a report in numbers, as `./lockreport --csv` prints it and --with takes it back. All lines have the same
# number of fields, as those that a spreadsheet writes. In order: its form, reading, writing.
#
#     lockreport 1,schedules counted,C,left out,L and empty fields
#     processor,entries,interrupts,joins,made 0 wait and so on, up to made 15 wait
#     for each processor a: its number, its totals, and for each b how many entries of a fell between a join of b and
#     the entry that join led to
#
# What is read goes to counted, left, total[a, kind] and charge[a, b]. A view has a function took_report(), called when
# a report is whole, and names what is read in the environment, as NAME. One that is not of this form gets a sentence
# with its line, and the status 2.

BEGIN {
    # a count of the table is the program's; the others are awk's own numbers, exact up to here
    MOST_CHARGED = 4294967295
    MOST_EXACT = 9007199254740991
    KINDS = split("entries interrupts joins", kind, " ")
    FIELDS = 1 + KINDS + PROCESSORS
    LINES = 2 + PROCESSORS
    FORMAT = "lockreport 1"
    heading = "processor"
    for (k = 1; k <= KINDS; k++) heading = heading "," kind[k]
    for (k = 0; k < PROCESSORS; k++) heading = heading ",made " k " wait"
    counted = left = 0
    for (a = 0; a < PROCESSORS; a++) {
        for (k = 1; k <= KINDS; k++) total[a, k] = 0
        for (b = 0; b < PROCESSORS; b++) charge[a, b] = 0
    }
}

# ---- reading

function not_saved(message) {
    print "lockreport: line " number " of " ENVIRON["NAME"] ": " message > "/dev/stderr"
    exit 2
}

# All of standard input: so many reports, one after the other.
function read_reports() {
    if (read_lines() != "") not_saved("the last line has no line feed")
    if ((number - 1) % LINES != 0) not_saved("it ends before the report is whole")
    return (number - 1) / LINES
}

function take(text,    at) {
    # as some spreadsheets end a line
    sub(/\r$/, "", text)
    at = (number - 1) % LINES
    if (at == 1) {
        if (text != heading) not_saved("is not the line that names the columns")
        return
    }
    if (split(text, field, ",") != FIELDS) not_saved("has not " FIELDS " fields")
    if (at == 0) take_first()
    else take_processor(at - 2)
    if (at == LINES - 1) took_report()
}

function take_first(    k) {
    if (field[1] != FORMAT || field[2] != "schedules counted" || field[4] != "left out")
        not_saved("is not as the first line of a saved report")
    counted = count_of(3, MOST_EXACT)
    left = count_of(5, MOST_EXACT)
    for (k = 6; k <= FIELDS; k++)
        if (field[k] != "") not_saved("field " k " is not empty")
}

function take_processor(a,    k) {
    if (field[1] != a "") not_saved("is not the line of processor " a)
    for (k = 1; k <= KINDS; k++) total[a, k] = count_of(1 + k, MOST_EXACT)
    for (k = 0; k < PROCESSORS; k++) charge[a, k] = count_of(2 + KINDS + k, MOST_CHARGED)
}

function count_of(k, most) {
    if (field[k] !~ /^(0|[1-9][0-9]*)$/) not_saved("field " k " is no decimal number")
    if (length(field[k]) > 16 || field[k] + 0 > most) not_saved("field " k " is over " plain(most))
    return field[k] + 0
}

# ---- writing

# A whole number in all its digits.
function plain(x) {
    return sprintf("%.0f", x)
}

function many(x, one, more) {
    return plain(x) " " (x == 1 ? one : more)
}

function write_report(    a, b, k, line) {
    line = FORMAT ",schedules counted," plain(counted) ",left out," plain(left)
    for (k = 6; k <= FIELDS; k++) line = line ","
    print line
    print heading
    for (a = 0; a < PROCESSORS; a++) {
        line = a
        for (k = 1; k <= KINDS; k++) line = line "," plain(total[a, k])
        for (b = 0; b < PROCESSORS; b++) line = line "," plain(charge[a, b])
        print line
    }
}
