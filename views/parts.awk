# parts.awk: one saved report or several, on standard input, to what the program and sum.awk take of each. The
# environment has PART, the path where the files are to stand: PART1 and so on, each a table as the program reads it;
# and PART1.totals, all else of the report: its numbers in one line, then how it is called. For each an argument of the
# program is printed.

BEGIN {
    parts = 0
    if (read_reports() == 0) not_saved("it is empty")
    for (k = 1; k <= parts; k++) print "t" ENVIRON["PART"] k
}

function took_report(    path, a, b, k, line) {
    parts++
    path = ENVIRON["PART"] parts
    for (a = 0; a < PROCESSORS; a++) {
        line = ""
        for (b = 0; b < PROCESSORS; b++) line = line (b == 0 ? "" : " ") sprintf("%010.0f", charge[a, b])
        print line > path
    }
    close(path)
    line = plain(counted) " " plain(left)
    for (a = 0; a < PROCESSORS; a++)
        for (k = 1; k <= KINDS; k++) line = line " " plain(total[a, k])
    path = path ".totals"
    print line > path
    print ENVIRON["NAME"] (parts == 1 ? "" : ", report " parts) > path
    close(path)
}
