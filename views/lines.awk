# lines.awk: what all views share: document 01's limits and refusals, the lines of standard input, the pairs of a line,
# and how a view gives up. A view sets `what`, the name of what it reads, and has a function take(text) for each whole
# line; `number` is its number.

BEGIN {
    HEX = "0123456789ABCDEF"
    NONE = 255
    MOST = 6000
    edition_name[0] = "plain"; edition_name[1] = "drawn"; edition_name[2] = "guarded"
    edition_name[3] = "old"
    EDITIONS = 4
    PROCESSORS = 16
    # 10 and 11 are answers of the library, and end no log
    refusal[1] = "the schedule has over 54,009 bytes"
    refusal[2] = "fewer than 9 bytes are left for a wanted line, or the ninth is no line feed"
    refusal[3] = "one of the eight is not 0-9, A-F or a-f"
    refusal[4] = "the check doesn't come to 0"
    refusal[5] = "line 1 doesn't begin 01, or a later one 02"
    refusal[6] = "edition over 3"
    refusal[7] = "N is 0 or over 16"
    refusal[8] = "event neither 1 nor 2"
    refusal[9] = "processor not below N"
}

# Every line in turn. Answers what stands after the last line feed; `number` is then that of the line it would be.
function read_lines(    reader, line, held) {
    # The dot shows whether the last line has its line feed: awk itself does not tell. And some awks leave out what
    # follows a byte 0, so it becomes 1, which is just as wrong.
    reader = "tr '\\000' '\\001'; echo ."
    number = 0
    while ((reader | getline line) > 0) {
        if (number > 0) take(held)
        number++
        held = line
    }
    return substr(held, 1, length(held) - 1)
}

# Ends with one sentence on the line in hand. Nothing is printed before all is read, so standard output stays empty.
function fail(message) {
    print "lockbench: line " number " of the " what ": " message > "/dev/stderr"
    exit 1
}

# The digits of a line, in upper case whichever case they are read in. Nothing but digits gets past the match, so no
# other letter is raised.
function digits_of(text) {
    if (match(text, /[^0-9A-Fa-f]/)) fail("character " RSTART " is not 0-9, A-F or a-f")
    return toupper(text)
}

# The pairs of a line as numbers in v[1], v[2] ..; answers their sum.
function pairs(text,    k, sum) {
    sum = 0
    for (k = 1; 2 * k <= length(text); k++) {
        v[k] = 16 * (index(HEX, substr(text, 2 * k - 1, 1)) - 1) + index(HEX, substr(text, 2 * k, 1)) - 1
        sum += v[k]
    }
    return sum
}

# A line of the pairs given, with its check.
function checked(text) {
    return text sprintf("%02X", (256 - pairs(text) % 256) % 256)
}

# Form and check of a line of a kind that has so many digits.
function well_formed(text, kind, digits) {
    if (length(text) != digits) fail("an " kind " line has " digits " digits, this one has " length(text))
    if (pairs(text) % 256 != 0) fail("the check does not come to 0")
}

# Edition and N of an 01 line.
function take_header(e, n) {
    if (!(e in edition_name)) fail(refusal[6])
    if (n < 1 || n > PROCESSORS) fail(refusal[7])
    edition = e
    N = n
}
