# columns.awk: a table whose columns are as wide as they need to be. cell() fills it, print_table() prints it and
# empties it.

function cell(text) {
    columns++
    entry_of[rows, columns] = text
    if (length(text) > width[columns]) width[columns] = length(text)
}

function next_row() {
    rows++
    columns = 0
}

# `align` has a letter for each column: r right, l left.
function print_table(align,    r, c, side, line, most) {
    most = length(align)
    for (r = 1; r <= rows; r++) {
        line = ""
        for (c = 1; c <= most; c++) {
            side = substr(align, c, 1) == "r" ? "" : "-"
            line = line sprintf("%" side width[c] "s  ", entry_of[r, c])
        }
        sub(/ +$/, "", line)
        print line
    }
    for (c = 1; c <= most; c++) width[c] = 0
    rows = 0
}
