# sum.awk: the report so far, on standard input, to the report after one more call of the program. The environment has
# ARGUMENTS and ANSWER, the files with the program's arguments, one a line, and with what it printed; `arguments` is
# their number. A sentence for each that is left out goes to the end of the file LEFT.
#
# The table is as the program has it. The totals are added here, and never past what awk's numbers hold exactly.

BEGIN {
    # given with the report alone; 16 rows are lent, so 13 is not
    refusal[12] = "a count would pass 4,294,967,295"
    answer_file = ENVIRON["ANSWER"]
    argument_file = ENVIRON["ARGUMENTS"]
    left_file = ENVIRON["LEFT"]
    read_reports()
    # the table of the call before
    if (next_of(answer_file) != "0 0 0") broken()
    for (i = 1; i <= arguments; i++) {
        argument = next_of(argument_file)
        name = substr(argument, 2)
        answer = next_of(answer_file)
        if (argument ~ /^t/) add_part(name)
        else add_schedule(name)
    }
    take_table()
    write_report()
}

function took_report() {
}

function next_of(file,    line) {
    if ((getline line < file) <= 0) broken()
    return line
}

function broken() {
    print "lockreport: the program's answer is not whole; the disk for temporary files may be full" > "/dev/stderr"
    exit 2
}

# ---- the answers

function add_schedule(name,    n, p, k) {
    n = split(answer, v, " ")
    if (answer == "unread") leave(1, "'" name "': " (argument ~ /^d/ ? "is a folder" : "cannot be read"))
    else if (answer !~ /^[0-9 ]+$/) broken()
    else if (n == 3 && v[3] == 0 && (v[1] in refusal))
        leave(1, "'" name "': refused" (v[2] == 0 ? "" : " at line " v[2]) ", no. " v[1] ": " refusal[v[1]])
    else if (v[1] == 0 && v[3] >= 1 && v[3] <= PROCESSORS && n == 3 + KINDS * v[3]) {
        counted = sum_of(counted, 1)
        for (p = 0; p < v[3]; p++)
            for (k = 1; k <= KINDS; k++) total[p, k] = sum_of(total[p, k], v[3 + KINDS * p + k])
    }
    else broken()
}

# A saved report, whose table the program has added, or has left out as a count would pass its limit.
function add_part(path,    name, p, k) {
    path = path ".totals"
    if (split(next_of(path), v, " ") != 2 + KINDS * PROCESSORS) broken()
    name = next_of(path)
    close(path)
    if (answer == "12 0 0") leave(v[1] + v[2], name ": left out whole, no. 12: " refusal[12])
    else if (answer == "0 0 0") {
        counted = sum_of(counted, v[1])
        left = sum_of(left, v[2])
        if (v[2] > 0) print name ": " many(v[2], "schedule", "schedules") " left out where it was made" >> left_file
        for (p = 0; p < PROCESSORS; p++)
            for (k = 1; k <= KINDS; k++) total[p, k] = sum_of(total[p, k], v[2 + KINDS * p + k])
    }
    else broken()
}

function leave(schedules, sentence) {
    left = sum_of(left, schedules)
    print sentence >> left_file
}

function take_table(    a, b, line) {
    for (a = 0; a < PROCESSORS; a++) {
        line = next_of(answer_file)
        if (line !~ /^[0-9 ]+$/ || length(line) != 11 * PROCESSORS - 1 || split(line, v, " ") != PROCESSORS) broken()
        for (b = 0; b < PROCESSORS; b++) {
            # one awk takes what begins with 0 for octal
            sub(/^0+/, "", v[b + 1])
            charge[a, b] = v[b + 1] + 0
        }
    }
    if ((getline line < answer_file) > 0) broken()
}

function sum_of(x, y) {
    if (x + y > MOST_EXACT) {
        print "lockreport: a sum would pass " plain(MOST_EXACT) ", up to which sums are exact" > "/dev/stderr"
        exit 2
    }
    return x + y
}
